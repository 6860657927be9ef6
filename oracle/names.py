#!/usr/bin/env python3
"""The 216 names of document 01 with their characters, from the published list alone (Python's copy of it, html.entities.html5).

    oracle/names.py

writes a line for each: the name, and its one or two characters in hexadecimal. The oracle is given these in place of its own names.
"""
from html.entities import html5

ASCII_TWINS = "amp AMP lt LT gt GT quot QUOT COPY REG".split()
OTHERS = {"apos;": "\u0027", "notin;": "\u2209", "centerdot;": "\u00B7", "fjlig;": "fj"}


def chosen_names():
    """The names by document 01's sentence, each of its clauses checked against the list."""
    without = {name: html5[name] for name in html5 if not name.endswith(";")}
    assert len(without) == 106
    assert all(html5[name + ";"] == characters for name, characters in without.items())
    latin = {name: characters for name, characters in without.items() if name not in ASCII_TWINS}
    assert sorted(map(ord, latin.values())) == list(range(0xA0, 0x100))
    assert html5["nbsp"] == "\u00A0" and html5["yuml"] == "\u00FF" and all(name in without for name in ASCII_TWINS)
    assert all(html5[name] == characters for name, characters in OTHERS.items())
    names = without | {name + ";": characters for name, characters in without.items()} | OTHERS
    assert len(names) == 216
    return names


NAMES = frozenset(chosen_names())
LONGEST = max(map(len, html5))


def same_names(source):
    """Whether the whole published list finds at each `&` just what the 216 names find."""
    at = source.find("&")
    while at >= 0:
        rest = source[at + 1:at + 1 + LONGEST]
        match = next((rest[:end] for end in range(len(rest), 1, -1) if rest[:end] in html5), None)
        if match is not None and match not in NAMES:
            return False
        at = source.find("&", at + 1)
    return True


if __name__ == "__main__":
    for name, characters in sorted(chosen_names().items()):
        print(name, *(f"{ord(character):X}" for character in characters))
