"""A second reading of the whole-slice calls: what decode whole, escape and check must answer, written down for a replay.

Made from the paper alone: document 01 (what the bench reads, pieces, names, whole-slice calls, marked sources, table of answers) and
its settled readings. No code of the project was looked at. The names come from Python's copy of the WHATWG list, well-formed UTF-8
from the grammar in RFC 3629, section 4. Only the standard library is needed.

    python3 tests/replay_whole.py FOLDER

writes to that folder stdin, a list of records to be replayed, and stdout, one line for each. They are the first part of those of crates/replay,
where the parts stand one after the other; tests/replay does all of it.

    list     the letter W, how many bytes the records have (4 bytes, little-endian), and the records
    record   kind, text room, error room, fill, n, m: 1 + 4 + 4 + 4 + 2 + 2 bytes, numbers little-endian; then m bytes; then n bytes;
             the source is the n bytes and then `fill` times `x`;
             kind is T or A (decode in text or in an attribute), t or a (escape in text or in attribute mode), both with m = 0,
             or C or c (check in text or in an attribute), with the text's length and how many numbers the rows and errors are for its
             rooms; the m bytes are then row bytes, error bytes (2 + 2), so many of each, and the text's, which is filled up with `x` to
             its length
    decode   ANSWER TEXT ERRORS PLACE HEX CODE@PLACE CODE@PLACE ...
    escape   ANSWER TEXT PLACE HEX
    check    ANSWER VERDICT ROW PLACE

HEX is the written text in lowercase hex, `-` if it is empty, and LENGTH:SUM of its bytes if it is longer than 600 bytes. Rows and errors are
numbers of four bytes, little-endian. What check must answer, and its cases, which come last, are in transcripts.py.

The first half of this file is the model, the second half the cases. Before anything is written, the model is held against the marked
sources M1 to M14, the sources that are 'only run', and the example of the bench program. A fixed seed draws the random cases, so two
runs write the same files.
"""

import random
import re
import struct
import sys
from collections import Counter
from html.entities import html5
from itertools import product
from pathlib import Path
from typing import NamedTuple

# ---------------------------------------------------------------------------------------------------------------- the model: answers

ENDED, ILL_FORMED, NUL, TOO_LONG, LEFT, ROOM_TOO_SMALL = 0, 1, 2, 3, 7, 9
NO_DIGIT, NO_SEMICOLON, BAD_NUMBER, UNKNOWN_NAME, BAD_CHARACTER = 1, 2, 3, 4, 5

TEXT, ATTRIBUTE = "T", "A"
CONTEXTS = (TEXT, ATTRIBUTE)
CONTEXT_END = {TEXT: b"<", ATTRIBUTE: b'"'}

MOST_SOURCE_BYTES = 65_536


class Decoded(NamedTuple):
    """What decode whole hands back; a field not named for an answer is 0."""
    answer: int
    text_bytes: int = 0
    place: int = 0
    text: bytes = b""
    errors: tuple = ()


class Escaped(NamedTuple):
    """What escape hands back; a field not named for an answer is 0."""
    answer: int
    text_bytes: int = 0
    place: int = 0
    text: bytes = b""


# ------------------------------------------------------------------------------------------------------------- the model: characters

def span(first, last):
    """The numbers from `first` to `last`, both included, as the paper and the RFC write ranges."""
    return range(first, last + 1)


TAIL = span(0x80, 0xBF)
WELL_FORMED = (
    (span(0x00, 0x7F),),
    (span(0xC2, 0xDF), TAIL),
    (span(0xE0, 0xE0), span(0xA0, 0xBF), TAIL),
    (span(0xE1, 0xEC), TAIL, TAIL),
    (span(0xED, 0xED), span(0x80, 0x9F), TAIL),
    (span(0xEE, 0xEF), TAIL, TAIL),
    (span(0xF0, 0xF0), span(0x90, 0xBF), TAIL, TAIL),
    (span(0xF1, 0xF3), TAIL, TAIL, TAIL),
    (span(0xF4, 0xF4), span(0x80, 0x8F), TAIL, TAIL),
)


def character_at(source, at):
    """The well-formed character at `at`, or nothing if a byte of it is ill-formed or the source ends inside it.

    Both faults have the same answer and the same place, the character's first byte, so no more need be told.
    """
    for form in WELL_FORMED:
        character = source[at:at + len(form)]
        if len(character) == len(form) and all(byte in allowed for byte, allowed in zip(character, form)):
            return character
    return b""


def characters(source):
    """Each character with its place, left to right; a faulty one is given as nothing and is the last."""
    at = 0
    while at < len(source):
        character = character_at(source, at)
        yield at, character
        if not character:
            return
        at += len(character)


def value_of(character):
    """The value that a well-formed character stands for."""
    lead_bits = {1: 0x7F, 2: 0x1F, 3: 0x0F, 4: 0x07}
    value = character[0] & lead_bits[len(character)]
    for byte in character[1:]:
        value = value << 6 | byte & 0x3F
    return value


# ----------------------------------------------------------------------------------------------------------------- the model: pieces

C1_TABLE = (
    "80 20AC, 82 201A, 83 0192, 84 201E, 85 2026, 86 2020, 87 2021, 88 02C6, 89 2030, 8A 0160, 8B 2039, 8C 0152, 8E 017D, "
    "91 2018, 92 2019, 93 201C, 94 201D, 95 2022, 96 2013, 97 2014, 98 02DC, 99 2122, 9A 0161, 9B 203A, 9C 0153, 9E 017E, 9F 0178"
)
C1_REPLACEMENTS = {int(number, 16): int(value, 16) for number, value in (row.split() for row in C1_TABLE.split(", "))}

BARE_NAMES = [name for name in html5 if not name.endswith(";")]
ADDED_NAMES = ["apos;", "notin;", "centerdot;", "fjlig;"]
NAMES = {name.encode(): html5[name].encode() for name in BARE_NAMES + [bare + ";" for bare in BARE_NAMES] + ADDED_NAMES}

NUMBER = re.compile(rb"&#(?:(?P<decimal>[0-9]+)|[xX](?P<hex>[0-9A-Fa-f]+))(?P<semicolon>;?)")
LETTERS_THEN_SEMICOLON = re.compile(rb"&[0-9A-Za-z]+;")

ERROR_5_RANGES = (span(0x01, 0x08), span(0x0B, 0x0B), span(0x0E, 0x1F), span(0x7F, 0x9F), span(0xFDD0, 0xFDEF))
REPLACED_RANGES = (span(0, 0), span(0xD800, 0xDFFF))
C1_RANGE = span(0x80, 0x9F)
KEPT_RANGES = (span(0x01, 0x08), span(0x0B, 0x0B), span(0x0D, 0x1F), span(0x7F, 0x7F), span(0xFDD0, 0xFDEF))


class Piece(NamedTuple):
    """A piece of the covered part: its source bytes, its text and the codes of its errors."""
    length: int
    text: bytes
    codes: tuple = ()


def is_among(value, ranges):
    """Whether the value is in one of the ranges, or its low 16 bits are FFFE or FFFF."""
    return any(value in numbers for numbers in ranges) or value & 0xFFFF in (0xFFFE, 0xFFFF)


def referenced_value(number):
    """The value that a numeric reference gives for an exact whole number, and its errors."""
    if number > 0x10FFFF or any(number in numbers for numbers in REPLACED_RANGES):
        return 0xFFFD, (BAD_NUMBER,)
    if number in C1_RANGE:
        return C1_REPLACEMENTS.get(number, number), (BAD_NUMBER,)
    return number, (BAD_NUMBER,) if is_among(number, KEPT_RANGES) else ()


def number_piece(match):
    """A numeric reference; error 2 comes before 3."""
    number = int(match["decimal"]) if match["decimal"] else int(match["hex"], 16)
    value, codes = referenced_value(number)
    missing = () if match["semicolon"] else (NO_SEMICOLON,)
    return Piece(len(match[0]), chr(value).encode(), missing + codes)


def longest_name(covered, at):
    """The longest table name standing at `at`, or None."""
    return max((name for name in NAMES if covered.startswith(name, at)), key=len, default=None)


def name_piece(covered, at, name, context):
    """A `&` with a name after it, which in an attribute may be no reference."""
    length = 1 + len(name)
    if name.endswith(b";"):
        return Piece(length, NAMES[name])
    following = covered[at + length:at + length + 1]
    if context == ATTRIBUTE and (following == b"=" or following.isalnum()):
        return Piece(1, b"&")
    return Piece(length, NAMES[name], (NO_SEMICOLON,))


def lone_ampersand(covered, at):
    """Any other `&`."""
    if covered.startswith(b"&#", at):
        return Piece(1, b"&", (NO_DIGIT,))
    if LETTERS_THEN_SEMICOLON.match(covered, at):
        return Piece(1, b"&", (UNKNOWN_NAME,))
    return Piece(1, b"&")


def ampersand_piece(covered, at, context):
    """The piece that begins with the `&` at `at`."""
    match = NUMBER.match(covered, at)
    if match:
        return number_piece(match)
    name = longest_name(covered, at + 1)
    if name:
        return name_piece(covered, at, name, context)
    return lone_ampersand(covered, at)


def piece_at(covered, at, context):
    """The piece that begins at `at`."""
    if covered.startswith(b"\r\n", at):
        return Piece(2, b"\n")
    character = character_at(covered, at)
    if character in (b"\r", b"\n"):
        return Piece(1, b"\n")
    if character == b"&":
        return ampersand_piece(covered, at, context)
    return Piece(len(character), character, (BAD_CHARACTER,) if is_among(value_of(character), ERROR_5_RANGES) else ())


def read_pieces(covered, context):
    """The text and the errors, pairs of code and place, of a readable covered part."""
    texts, errors, at = [], [], 0
    while at < len(covered):
        piece = piece_at(covered, at, context)
        texts.append(piece.text)
        errors += ((code, at) for code in piece.codes)
        at += piece.length
    return b"".join(texts), tuple(errors)


# ------------------------------------------------------------------------------------------------------ the model: whole-slice calls

def first_stop(source, context):
    """Where reading stops, and with which answer: at a faulty character, NUL, the context's end, or the end of the source."""
    for place, character in characters(source):
        if not character:
            return ILL_FORMED, place
        if character == b"\0":
            return NUL, place
        if character == CONTEXT_END[context]:
            return LEFT, place
    return ENDED, len(source)


def enough_room(source):
    """The least text bytes and error numbers that decode whole accepts."""
    return len(source) + 64, 2 * len(source) + 8


def decode_whole(context, source, text_room, error_room):
    """Decode whole: 3, then 9, then 1 or 2, else 0 or 7."""
    if len(source) > MOST_SOURCE_BYTES:
        return Decoded(TOO_LONG)
    text_needed, errors_needed = enough_room(source)
    if text_room < text_needed or error_room < errors_needed:
        return Decoded(ROOM_TOO_SMALL, text_bytes=text_needed)
    answer, stop = first_stop(source, context)
    if answer in (ILL_FORMED, NUL):
        return Decoded(answer, place=stop)
    text, errors = read_pieces(source[:stop], context)
    assert len(text) <= stop, "decoded text is never longer than the covered part"
    return Decoded(answer, len(text), stop if answer == LEFT else 0, text, errors)


REPLACEMENTS = {b"&": b"&amp;", b"<": b"&lt;", b">": b"&gt;", "\u00A0".encode(): b"&nbsp;"}
MODE_REPLACEMENTS = {TEXT: REPLACEMENTS, ATTRIBUTE: REPLACEMENTS | {b'"': b"&quot;"}}


def escape(mode, source, room):
    """Escape: 3, then 1, then 9, else 0."""
    if len(source) > MOST_SOURCE_BYTES:
        return Escaped(TOO_LONG)
    parts = []
    for place, character in characters(source):
        if not character:
            return Escaped(ILL_FORMED, place=place)
        parts.append(MODE_REPLACEMENTS[mode].get(character, character))
    result = b"".join(parts)
    assert len(result) <= 6 * len(source), "the result is at most six times the input"
    if len(result) > room:
        return Escaped(ROOM_TOO_SMALL, text_bytes=len(result))
    return Escaped(ENDED, len(result), text=result)


# -------------------------------------------------------------------------------------------------------- the paper's own examples

MARKED_SOURCES = (
    (TEXT, b"", "", ""),
    (TEXT, b"&amp;lt;", "&lt;", ""),
    (TEXT, b"&notit;x", "¬it;x", "2@0"),
    (TEXT, b"&notin;", "\u2209", ""),
    (ATTRIBUTE, b"&not=1", "&not=1", ""),
    (ATTRIBUTE, b"&not", "¬", "2@0"),
    (TEXT, b"&#x110000;", "\uFFFD", "3@0"),
    (TEXT, b"&#128", "\u20AC", "2@0 3@0"),
    (TEXT, b"&#x;", "&#x;", "1@0"),
    (TEXT, b"&#13;\r\n", "\r\n", "3@0"),
    (TEXT, b"&abc;", "&abc;", "4@0"),
    (TEXT, b"a<b", "a", ""),
    (TEXT, b"&&lt", "&<", "2@1"),
    (TEXT, b"&centerdot", "¢erdot", "2@0"),
)
ONLY_RUN = (
    (TEXT, b"&#x10FFFF;", "\U0010FFFF", "3@0"),
    (TEXT, b"&#xD7FF;", "\uD7FF", ""),
    (TEXT, b"&#xD800;", "\uFFFD", "3@0"),
    (TEXT, b"&#4294967361;", "\uFFFD", "3@0"),
)


def error_list(errors):
    """Errors as the paper writes them."""
    return " ".join(f"{code}@{place}" for code, place in errors)


def program_output(context, source):
    """What the bench program writes for a readable source."""
    decoded = decode_whole(context, source, *enough_room(source))
    closing = f"left {decoded.place}" if decoded.answer == LEFT else f"end {len(source)}"
    return "".join(f"{line}\n" for line in [decoded.text.decode(), *(f"{code} {place}" for code, place in decoded.errors), closing])


def check_names():
    """The names are the 216 that the paper describes."""
    the_other_ten = "amp AMP lt LT gt GT quot QUOT COPY REG".split()
    latin_1 = [html5[name] for name in BARE_NAMES if name not in the_other_ten]
    assert len(BARE_NAMES) == 106 and len(NAMES) == 216
    assert sorted(latin_1) == [chr(value) for value in span(0xA0, 0xFF)]
    assert [html5[name] for name in ADDED_NAMES] == ["'", "\u2209", "\u00B7", "fj"]


def check_examples():
    """The model gives what the paper prints for its marked sources and its program."""
    for context, source, text, errors in MARKED_SOURCES + ONLY_RUN:
        decoded = decode_whole(context, source, *enough_room(source))
        assert (decoded.text.decode(), error_list(decoded.errors)) == (text, errors), source
        assert decoded.answer == (LEFT if source == b"a<b" else ENDED), source
    assert program_output(TEXT, b"") == "\nend 0\n"
    assert program_output(TEXT, b"a<b") == "a\nleft 1\n"
    assert program_output(TEXT, b"&notit;x") == "¬it;x\n2 0\nend 8\n"


# ------------------------------------------------------------------------------------------------------------------- records, lines

# What the replaying program has room for, and the longest text that a line shows in full.
MOST_LIST_BYTES = 1_000_000
MOST_TEXT_ROOM, MOST_ERROR_ROOM, MOST_CASE_BYTES = 400_000, 140_000, 66_000
LONGEST_HEX = 600


def packed(kind, text_room, error_room, fill, own, before=b""):
    """A record as it stands in stdin: its head, what stands before the source, and the source's own bytes."""
    assert text_room <= MOST_TEXT_ROOM and error_room <= MOST_ERROR_ROOM and len(own) + fill <= MOST_CASE_BYTES
    return struct.pack("<cIIIHH", kind.encode(), text_room, error_room, fill, len(own), len(before)) + before + own


def write_part(folder, letter, records, lines):
    """Writes stdin, a list with its head, and stdout, its lines; says how long they are."""
    listed = b"".join(records)
    assert len(listed) <= MOST_LIST_BYTES, "the program reads no longer list"
    folder.mkdir(parents=True, exist_ok=True)
    stdin = (folder / "stdin").write_bytes(struct.pack("<cI", letter, len(listed)) + listed)
    stdout = (folder / "stdout").write_bytes("".join(line + "\n" for line in lines).encode())
    return f"stdin {stdin} bytes, stdout {stdout} bytes"


class Record(NamedTuple):
    """One call: what it is, its rooms, and its source as a head and a number of `x`."""
    kind: str
    text_room: int
    error_room: int
    head: bytes
    fill: int = 0

    @property
    def source(self):
        """The bytes that the call is lent."""
        return self.head + b"x" * self.fill

    def packed(self):
        """The record as it stands in stdin."""
        return packed(self.kind, self.text_room, self.error_room, self.fill, self.head)

    def line(self):
        """The record's line in stdout."""
        if self.kind in CONTEXTS:
            decoded = decode_whole(self.kind, self.source, self.text_room, self.error_room)
            fields = f"{decoded.answer} {decoded.text_bytes} {len(decoded.errors)} {decoded.place} {written(decoded.text)}"
            return f"{fields} {error_list(decoded.errors)}".rstrip()
        escaped = escape(self.kind.upper(), self.source, self.text_room)
        return f"{escaped.answer} {escaped.text_bytes} {escaped.place} {written(escaped.text)}"


def written(text):
    """Written text as a line shows it."""
    if len(text) > LONGEST_HEX:
        return f"{len(text)}:{sum(text) % 2**32}"
    return text.hex() or "-"


def decode_record(context, head, fill=0):
    """Decode whole with room exactly enough."""
    text_room, error_room = enough_room(head + b"x" * fill)
    return Record(context, text_room, error_room, head, fill)


def exact_room(mode, source):
    """The room that escape needs: none if the input is ill-formed, since 1 comes before 9."""
    return escape(mode, source, 6 * len(source)).text_bytes


def escape_record(mode, head, fill=0):
    """Escape with room exactly enough."""
    return Record(mode.lower(), exact_room(mode, head + b"x" * fill), 0, head, fill)


# ---------------------------------------------------------------------------------------------- cases: short sources for both contexts

FAULTS = [bytes.fromhex(digits) for digits in (
    "C080", "C1BF", "C2", "C241", "E08080", "E09F80", "E0A0", "E2", "E228A1", "E282", "EDA080", "ED9FBF", "EFBF", "F0", "F0808080", "F08F",
    "F09080", "F09F", "F09F41", "F09F92", "F09F9241", "F4908080", "F48FBFBF", "F5", "FF", "80", "BF",
)]
FAULT_SURROUNDINGS = ((b"", b""), (b"", b"text"), (b"text", b""), (b"&", b""), (b"", b"<"), (b'<"', b""))


def faulty_sources():
    """Ill-formed and cut-off characters, and a few well-formed ones beside them, wherever they can stand."""
    for fault in FAULTS:
        for before, after in FAULT_SURROUNDINGS:
            yield before + fault + after


def nul_sources():
    """NUL wherever it can stand, also inside a character, where it is ill-formed, and beside other reasons to stop."""
    yield from (b"\0a", b"a\0b", b"a\0", b"&\0", b"&not\0", b"&am\0", b"&#\0", b"&#6\0", b"&#x\0", b"&#x4\0", b"\r\0")
    yield from (b"a<\0", b'a"\0', b"a\0<", b'a\0"', b"\xE2\0", b"\xE2\x82\0", b"\0\xFF", b"\xFF\0", b"<\xFF", b'"\xFF', b'\xE2"', b"&not\xFF")


def line_break_sources():
    """CR and LF, written and referred to."""
    yield from (b"&#13;\n", b"&#13;\r\n", b"\r&#10;", b"\r\r\n", b"\n\r", b"\r", b"\n", b"\r\n", b"a\r", b"\ra", b"\n\n", b"\r\n\r\n")
    yield from (b"\r<\n", b'\r"\n', b"&#13\n", b"&#xd;&#xa;", b"&\r\n", b"&not\r\n", b"&lt;\r", b"\n\r\n\r")


def ampersand_sources():
    """What may follow a `&`, one kind after another."""
    yield from (b"&", b"&&", b"&;", b"& ", b"&=", b"&#", b"&#;", b"&##", b"&#&", b"&#<1;", b'&#"1;', b"&#a;", b"&#-1;", b"&#+1;", b"&# 1;")
    yield from (b"&#x", b"&#X", b"&#x;", b"&#X;", b"&#xg;", b"&#Xz", b"&#xx41;", b"&#x<4;", b'&#x"4;', b"&#x&#x41;", b"&x41;", b"&#x 41;")
    yield from (b"&#65", b"&#65a", b"&#65A;", b"&#65 ;", b"&#65&#66;", b"&#65<;", b'&#65";', b"&#x41", b"&#x41g", b"&#X41G;", b"&#x41<;")
    yield from (b"&#xAf;", b"&#XaF;", b"&#xfG", b"&#XFg", b"&#X2aB", b"&#x/", b"&#x:", b"&#x@", b"&#x`", b"&#/", b"&#:")
    yield from (b"&a", b"&a;", b"&1;", b"&0aZ9;", b"&abc", b"&abc;;", b"&abc<;", b'&abc";', b"&abc &abc;", b"&abc&abc;", b"&a-b;", b"&a_;")
    yield from (b"&notit;", b"&notin", b"&notin;", b"&notins;", b"&not;in;", b"&noti", b"&ampamp;", b"&amp&amp", b"&Amp;", b"&aMP;", b"&LT&GT")
    yield from (b"&apos", b"&apos;", b"&apos=", b"&fjlig", b"&fjlig;", b"&centerdot;", b"&centerdo;", b"&cente=", b"&Cent;", b"&QUOT&quot")
    yield from (b"&not0", b"&not9", b"&notA", b"&notZ", b"&nota", b"&notz", b"&not/", b"&not:", b"&not@", b"&not[", b"&not`", b"&not{", b"&not#")
    yield from (b"&#38;lt;", b"&#38;#38;", b"&amp;#38;", b"&lt;b", b"&lt<b", b'&quot"b', b"&#60;b", b"&#34;b", b"&#x3c;&#x22;b")
    yield from ("&é;".encode(), "&abcé;".encode(), "&noté".encode(), "&not１".encode(), "&#１;".encode(), "&#x１;".encode(), "&#1１;".encode())
    yield from ("\uFEFF".encode(), "\uFEFFa&lt;".encode(), "a\uFEFFb".encode(), "&\uFEFF".encode(), b"&#xFEFF;", "e\u0301\U0001F600".encode())
    yield from (b"&" + b"letters" * 20 + end for end in (b"", b";", b" ", b"&"))


def name_sources():
    """Each name alone, followed by every character that matters, and cut short by one and by two characters.

    What may follow stands in two sources, since in each context one of `<` and `"` shuts out what comes after it.
    """
    for name in NAMES:
        reference = b"&" + name
        inside = b"".join(reference + following for following in (b"=", b"x", b";", b" ", b"&"))
        yield from (reference, reference[:-1], reference[:-2])
        yield inside + reference + b"<" + reference + b'"'
        yield reference + b'"' + reference + b"<"


def neighbourhood(ranges):
    """Both ends of every range, and the numbers one below and one above."""
    return sorted({max(0, end + step) for numbers in ranges for end in (numbers[0], numbers[-1]) for step in (-1, 0, 1)})


LAST_TWO_OF_EACH_PLANE = tuple(span(plane << 16 | 0xFFFE, plane << 16 | 0xFFFF) for plane in range(17))
NUMBER_RANGES = REPLACED_RANGES + KEPT_RANGES + LAST_TWO_OF_EACH_PLANE + (C1_RANGE, span(0x110000, 0x110000))


def number_sources():
    """Every boundary of the number rules and all C1 numbers: each spelling with `;`, followed by a letter, and without either."""
    for number in sorted({*neighbourhood(NUMBER_RANGES), *C1_RANGE}):
        spellings = (f"{number}", f"x{number:x}", f"X{number:X}")
        yield "".join(f"&#{spelling}{end}" for spelling, end in product(spellings, (";", "g", ""))).encode()


def long_number_sources():
    """Digit runs that wrap a narrow number, and very long ones."""
    wrapping = [2**bits + rest for bits in (16, 21, 31, 32, 33, 63, 64, 128) for rest in (0, 65)]
    runs = [spelling for number in wrapping for spelling in (f"{number}", f"x{number:x}")]
    runs += ["9" * 300, "x" + "f" * 300, "0" * 300, "x" + "0" * 300, "0" * 300 + "65", "X" + "0" * 300 + "41", "0" * 1000 + "128", "000000000065"]
    for run, end in product(runs, (";", "")):
        yield f"&#{run}{end}".encode()


def byte_sources():
    """Every byte alone, and every ASCII byte between two letters."""
    yield from (bytes([byte]) for byte in range(256))
    yield from (bytes([ord("a"), byte, ord("b")]) for byte in range(128))


def error_5_sources():
    """Characters that get error 5 and their neighbours."""
    for value in neighbourhood(ERROR_5_RANGES + LAST_TWO_OF_EACH_PLANE):
        if value <= 0x10FFFF:
            yield f"a{chr(value)}b".encode()


def run_sources():
    """Plain text up to and past multiples of 32, and then a reference, other characters or half a character."""
    for length, after in product(range(101), (b"&amp;and text", '\u20AC\r\n\x01and"left<'.encode(), b"\xE2\x82")):
        yield (b"plain text " * 10)[:length] + after


LETTERS = [bytes([byte]) for byte in b'&#xX;aAfFgGnotiltmp0189 =<>"\r\n\x01\x7F'] + [character.encode() for character in "\u00A0€😀\uFFFE"]
BEGINNINGS = [b"&", b"&#", b"&#x", b"&#x8", b"&#1", b"&not", b"&lt", b"&amp", b"&noti", b"&a"]


def random_sources(count, seed):
    """Short sources over an alphabet that makes references; half of the draws are beginnings of one."""
    draw = random.Random(seed)
    for _ in range(count):
        yield b"".join(draw.choice(draw.choice((LETTERS, BEGINNINGS))) for _ in range(draw.randint(1, 16)))


def short_sources():
    """All sources that are decoded in both contexts with room exactly enough."""
    yield from (source for _, source, _, _ in MARKED_SOURCES + ONLY_RUN)
    for group in (line_break_sources, ampersand_sources, nul_sources, faulty_sources, byte_sources, error_5_sources, number_sources,
                  long_number_sources, name_sources, run_sources):
        yield from group()
    yield from random_sources(300, seed=1)


# ----------------------------------------------------------------------------------------------------- cases: rooms and long sources

def decode_room_records():
    """Rooms exactly enough, short in one way or another, none and plenty; 9 comes before 1, 2 and 7."""
    sources = (b"", b"&notit;x", b"&#128&#0&#x1", b"\x01" * 40, b"plain text " * 9, b'a<"' + b"b" * 70, b"a\xFFb", b"a\0b")
    for context, source in product(CONTEXTS, sources):
        text, errors = enough_room(source)
        yield from (Record(context, room, errors, source) for room in (text, text - 1, 64, 63, 0, MOST_TEXT_ROOM))
        yield from (Record(context, text, room, source) for room in (errors - 1, errors - 2, 8, 7, 0, MOST_ERROR_ROOM))
        yield from (Record(context, 0, 0, source), Record(context, text - 1, errors - 1, source))
        yield Record(context, MOST_TEXT_ROOM, MOST_ERROR_ROOM, source)


def filled(head, length):
    """The head and the fill of a source of this length."""
    return head, length - len(head)


REFERENCES = b"&amp;&#128&notit;\r\n&#x41;\x01&abc; &#; &\r"
BLOCK = b"A block of text in which &notit; &#13 &lt=\r\n and \xC2\xA0 are not plain.\n"


def blocks(length):
    """As many blocks as fit into this length, and spaces after them."""
    return (BLOCK * (length // len(BLOCK))).ljust(length)


def long_decode_records():
    """Sources just under, at and over the limit; 3 comes before everything."""
    for context, length in product(CONTEXTS, (65_535, 65_536, 65_537)):
        for head in (b"", REFERENCES, b"\xFF", b"\0", b"a<", b'a"'):
            yield decode_record(context, *filled(head, length))
        yield Record(context, 0, 0, *filled(b"", length))
    for context in CONTEXTS:
        text, errors = enough_room(b"x" * MOST_SOURCE_BYTES)
        for text_room, error_room in ((text - 1, errors), (text, errors - 1), (text, errors - 2), (MOST_TEXT_ROOM, MOST_ERROR_ROOM)):
            yield Record(context, text_room, error_room, *filled(REFERENCES, MOST_SOURCE_BYTES))
        yield decode_record(context, *filled(b"\x01" * 4000, MOST_SOURCE_BYTES))
    yield decode_record(TEXT, *filled(blocks(65_531) + b"&not", MOST_SOURCE_BYTES))
    yield decode_record(ATTRIBUTE, *filled(blocks(8_000) + b"&lt", MOST_SOURCE_BYTES))


# -------------------------------------------------------------------------------------------------------------------- cases: escape

SPECIALS = (b"&", b"<", b">", b'"', b"'", b"\xC2\xA0")


def escape_sources():
    """Special characters, C2 before other bytes, A0 after other lead bytes, faults, runs and random ones."""
    for special in SPECIALS:
        yield from (special, b"a" + special + b"b", special * 2, special * 40)
    yield from (b"", b"plain", b"".join(SPECIALS), bytes(range(128)), b"a\0b", b"&amp;&nbsp;&quot;", b"\r\n\r", "\uFEFFé€😀\uFFFE".encode())
    yield b"".join(bytes([0xC2, tail]) for tail in TAIL)
    yield b"".join(bytes([lead, 0xA0]) for lead in span(0xC2, 0xDF))
    yield from (bytes([0xC2, byte]) for byte in (0x00, 0x20, 0x26, 0x3C, 0x7F, 0x80, 0x9F, 0xA0, 0xA1, 0xBF, 0xC0, 0xC2, 0xE2, 0xFF))
    yield from (bytes.fromhex(digits) for digits in (
        "A0", "C3A0", "E0A080", "E1A080", "E180A0", "E182A0", "E2A0A0", "EFA0A0", "F0A08080", "F090A080", "F09080A0", "F1A0A0A0", "F48FA0A0",
        "C2A0A0", "C2C2A0", "C3C2A0", "E2C2A0", "E282C2A0", "C2A0C2", "C3A0C2A0", "E182A0C2A0", "61C2", "C2A0C2A1C2A0",
    ))
    yield from faulty_sources()
    for length in range(101):
        yield (b"plain text " * 10)[:length] + b'"\xC2\xA0<and text'
    yield from random_sources(50, seed=2)


def escape_room_records():
    """Rooms exactly enough, one short, none and plenty; 1 comes before 9."""
    sources = (b"", b"a", b"&", b'"', b"\xC2\xA0", b'a<b>&"\xC2\xA0', b"plain text " * 9, b'"' * 70, b"a&\xFF", b"a&\xE2\x82")
    for mode, source in product(CONTEXTS, sources):
        exact = exact_room(mode, source)
        for room in sorted({max(0, exact - 1), exact, exact + 1, len(source), 6 * len(source), 0, MOST_TEXT_ROOM}):
            yield Record(mode.lower(), room, 0, source)


def long_escape_records():
    """Inputs just under, at and over the limit; 3 comes before everything."""
    for mode, length in product(CONTEXTS, (65_535, 65_536, 65_537)):
        for head in (b"", b"".join(SPECIALS), b"\xFF", b"&\0", b"<\xE2\x82"):
            record = escape_record(mode, *filled(head, length))
            yield from (record, record._replace(text_room=max(0, record.text_room - 1)), record._replace(text_room=MOST_TEXT_ROOM))
    yield escape_record(ATTRIBUTE, *filled(b'"' * 65_535, MOST_SOURCE_BYTES))
    yield escape_record(TEXT, *filled(blocks(8_000) + b"\xC2\xA0", MOST_SOURCE_BYTES))


# ------------------------------------------------------------------------------------------------------------------------- the files

def all_records():
    """Every case, in order; some come twice."""
    for source, context in product(short_sources(), CONTEXTS):
        yield decode_record(context, source)
    yield from decode_room_records()
    yield from long_decode_records()
    for source, mode in product(escape_sources(), CONTEXTS):
        yield escape_record(mode, source)
    yield from escape_room_records()
    yield from long_escape_records()


def main():
    """Check the model, then write stdin and stdout."""
    if len(sys.argv) != 2:
        sys.exit("usage: python3 tests/replay_whole.py FOLDER")
    check_names()
    check_examples()
    from transcripts import transcript_records  # not before: it is made of this file's model
    records = [*dict.fromkeys(all_records()), *transcript_records()]
    sizes = write_part(Path(sys.argv[1]), b"W", (record.packed() for record in records), (record.line() for record in records))
    kinds = ", ".join(f"{count} of {kind}" for kind, count in Counter(record.kind for record in records).items())
    print(f"{len(records)} records ({kinds}), {sizes}")


if __name__ == "__main__":
    main()
