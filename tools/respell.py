#!/usr/bin/env python3
"""Brings the names of this repository's own definitions and lemmas to the library's spelling.

usage: python3 tools/respell.py     at the top of the repository, once, after the library's scripts

`respell.tsv` beside it has the names, old and new. Definitions, fields and constructors are in snake case. So are lemmas, but a dash stays between two
names of functions, as in `length-front`, and beside a name of a type or an operator. Names of the code keep their spelling, and so does what stands in
comments and strings. A name that the library has too stays the library's where a file imports it from there.
"""

import os
import re

# A field that would have the name of the definition that its type cites, with the files that have it.
FIELDS = [("is_open", "stands_open", re.compile(r"(?<![\w.])is_open(?= [:=])|(?<=\.)is_open(?!\.)"), re.compile(r"decoder/proofs/(Returns\.antt|stream/Stream/(end|feed)/)"))]
TABLE = os.path.join(os.path.dirname(os.path.realpath(__file__)), "respell.tsv")


def files(root, endings, top):
    for folder, dirs, names in os.walk(os.path.join(root, top)):
        dirs[:] = sorted(d for d in dirs if d not in ("out", "target", ".git"))
        for name in sorted(names):
            if name.endswith(endings):
                yield os.path.join(folder, name)


def read(path):
    with open(path, encoding="utf-8") as f:
        return f.read()


def split_comments(line, mark):
    at = line.find(mark)
    while at > 0 and line[:at].count('"') % 2:
        at = line.find(mark, at + 1)
    return (line, "") if at < 0 else (line[:at], line[at:])


def turn(text, new, mark):
    pattern = re.compile(r"(?<![\w'?-])(" + "|".join(re.escape(a) for a in sorted(new, key=len, reverse=True)) + r")(?![\w'?-])")

    def in_code(s):
        parts = re.split(r'("(?:[^"\\]|\\.)*")', s)
        return "".join(p if i % 2 else pattern.sub(lambda m: new[m.group(1)], p) for i, p in enumerate(parts))

    def in_comment(s):
        return re.sub(r"`[^`]*`", lambda m: pattern.sub(lambda n: new[n.group(1)], m.group(0)), s)

    out = []
    for line in text.split("\n"):
        code, comment = split_comments(line, mark)
        out.append(in_code(code) + in_comment(comment))
    return "\n".join(out)


IMPORT = re.compile(r"(?m)^(?:pub )?(?:ghost )?use ([^\s{};]+)\.\{([^}]*)\}")


def from_library(text, own):
    """The names that a file imports from the library."""
    names = set()
    for module, items in IMPORT.findall(text):
        if not re.match(r"Rattle\.(" + "|".join(own) + r")\.", module):
            names |= {re.split(r"\s+as\s+", i.strip())[0] for i in items.split(",")}
    return names


def through_alias(text, own, new, theirs):
    """A name that the library has too, where it is cited through an alias of a module of this repository."""
    for alias in re.findall(r"(?m)^(?:ghost )?use Rattle\.(?:" + "|".join(own) + r")\.\S+ as (\w+)", text):
        for a in theirs & set(new):
            text = re.sub(r"(?<![\w.])" + alias + r"\." + re.escape(a) + r"(?![\w'?-])", alias + "." + new[a], text)
    return text


def main():
    root = "."
    own = sorted(os.listdir(os.path.join(root, "crates")))
    with open(TABLE, encoding="utf-8") as f:
        new = dict(line.split() for line in f)
    for path in files(root, (".antt", ".rt"), "crates"):
        text = read(path)
        it = text
        for _, to, pattern, where in FIELDS:
            it = pattern.sub(to, it) if where.search(path) else it
        theirs = from_library(text, own)
        it = turn(it, {a: b for a, b in new.items() if a not in theirs}, "--" if path.endswith(".antt") else "//")
        it = through_alias(it, own, new, theirs)
        if it != text:
            with open(path, "w", encoding="utf-8") as f:
                f.write(it)
    edits = re.compile(r"^(old|new): ")
    for path in files(root, ".edit", "crates"):
        text = read(path)
        it = "\n".join(turn(l, new, "\0") if edits.match(l) else l for l in text.split("\n"))
        if it != text:
            with open(path, "w", encoding="utf-8") as f:
                f.write(it)


if __name__ == "__main__":
    main()
