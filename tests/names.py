#!/usr/bin/env python3
"""The 216 names of document 01 with their characters, from the published list (html.entities), one line each.

    python3 tests/names.py > crates/list_names/stdout
"""
from html.entities import html5

without = [name for name in html5 if not name.endswith(";")]
names = without + [name + ";" for name in without] + ["apos;", "notin;", "centerdot;", "fjlig;"]
for name in sorted(names, key=lambda name: name.encode()):
    print(name, *("%x" % ord(c) for c in html5[name]))
