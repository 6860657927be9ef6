"""A second reading of the checker: what check must answer, written down for a replay.

Made from the paper alone: document 01 (what the bench reads, pieces, transcript, table of answers), and the model of decoding in
replay_whole.py, which was made from it too. No code of the project was looked at. Only the standard library is needed.

tests/replay_whole.py writes these records after its own:

    record   kind, text length, numbers, fill, n, m: 1 + 4 + 4 + 4 + 2 + 2 bytes, numbers little-endian; then m bytes; then n bytes;
             kind is C or c (check in text or in an attribute);
             the m bytes are row bytes, error bytes (2 + 2), then so many of each, and then the text's; the n bytes are the source's;
             after their bytes text and source have `x`, the text up to its length and the source `fill` times
    check    ANSWER VERDICT ROW PLACE

Rows and errors have four bytes a number, little-endian, and as many numbers as the record says; verdict is 0 for accepted and 1 to 5
for a to e.

The first half of this file is the model, the second half the cases. A case that was made for one reason says so, and the model has to
give that reason for it. Before anything is written, the model is held against the paper's sentences on transcripts and against a second
definition of acceptance. A fixed seed draws the random cases, so two runs write the same files.

The cases of `edge_groups` came later, after a checker with one letter's class wrong had answered all others as it should. Those of many
rows, long runs and late stops came later too: before them no transcript had 32 rows of one plain byte in a row, none had a wrong byte in
a run of 32, and no source stopped after its 32nd byte. The model stayed as it was.
"""

import random
import struct
from collections import Counter
from functools import cache
from itertools import accumulate, combinations, product
from typing import NamedTuple

from replay_whole import (
    ATTRIBUTE, BEGINNINGS, BLOCK, C1_RANGE, CONTEXTS, ENDED, ERROR_5_RANGES, FAULTS, FAULT_SURROUNDINGS, ILL_FORMED, LAST_TWO_OF_EACH_PLANE,
    LETTERS, MARKED_SOURCES, MOST_SOURCE_BYTES, NAMES, NUL, NUMBER_RANGES, ONLY_RUN, TEXT, TOO_LONG, ampersand_sources, decode_whole,
    enough_room, first_stop, line_break_sources, long_number_sources, neighbourhood, nul_sources, packed, piece_at, random_sources, short_sources,
)

# ------------------------------------------------------------------------------------------------------------------ the model: check

NOT_WHOLE = 10
ACCEPTED, A, B, C, D, E = range(6)

NUMBER_BYTES = 4
ROW_BYTES, ERROR_BYTES = 3 * NUMBER_BYTES, 2 * NUMBER_BYTES


class Checked(NamedTuple):
    """What check hands back; a field not named for an answer is 0."""
    answer: int
    verdict: int = ACCEPTED
    row: int = 0
    place: int = 0


def pack(groups):
    """Groups of numbers as the bytes that a call is lent."""
    return b"".join(struct.pack("<I", number) for group in groups for number in group)


def unpack(lent, size):
    """The groups of `size` numbers that lent bytes stand for."""
    return list(struct.iter_unpack(f"<{size}I", lent))


# Long sources come in several cases, and are read once.
stop_of = cache(first_stop)


@cache
def pieces_of(covered, context):
    """The pieces of a readable covered part, each with its place."""
    pieces, at = [], 0
    while at < len(covered):
        pieces.append((at, piece_at(covered, at, context)))
        at += pieces[-1][1].length
    return tuple(pieces)


def between(pieces, start, end):
    """The text and the errors of the pieces that stand from `start` to `end`."""
    inside = [(at, piece) for at, piece in pieces if start <= at < end]
    return b"".join(piece.text for _, piece in inside), [(code, at) for at, piece in inside for code in piece.codes]


def judge(covered, context, rows, text, errors):
    """The verdict on a transcript of a readable source, and its row."""
    pieces = pieces_of(covered, context)
    piece_ends = {at + piece.length for at, piece in pieces}
    source_at = text_at = error_at = 0
    for number, (source_bytes, text_bytes, error_count) in enumerate(rows):
        source_end, text_end, error_end = source_at + source_bytes, text_at + text_bytes, error_at + error_count
        if source_bytes == 0 or source_end > len(covered):
            return A, number
        if source_end not in piece_ends:
            return B, number
        row_text, row_errors = between(pieces, source_at, source_end)
        if text_end > len(text) or text[text_at:text_end] != row_text:
            return C, number
        if error_end > len(errors) or errors[error_at:error_end] != row_errors:
            return D, number
        source_at, text_at, error_at = source_end, text_end, error_end
    if (source_at, text_at, error_at) != (len(covered), len(text), len(errors)):
        return E, len(rows)
    return ACCEPTED, 0


def check(context, source, rows, text, errors):
    """Check, with rows and errors as lent bytes: 3, then 10, then 1 or 2, else 0 with a verdict."""
    if len(source) > MOST_SOURCE_BYTES:
        return Checked(TOO_LONG)
    if len(rows) % ROW_BYTES or len(errors) % ERROR_BYTES:
        return Checked(NOT_WHOLE)
    answer, stop = stop_of(source, context)
    if answer in (ILL_FORMED, NUL):
        return Checked(answer, place=stop)
    return Checked(ENDED, *judge(source[:stop], context, unpack(rows, 3), text, unpack(errors, 2)))


# ----------------------------------------------------------------------------------------------------------------- records and lines

KINDS = {TEXT: "C", ATTRIBUTE: "c"}


class Call(NamedTuple):
    """One call of check: rows and errors as bytes, text and source as bytes of their own and a number of `x`."""
    context: str
    head: bytes
    rows: bytes
    own_text: bytes
    errors: bytes
    fill: int = 0
    text_fill: int = 0

    @property
    def kind(self):
        """The letter that its record begins with."""
        return KINDS[self.context]

    @property
    def source(self):
        """The source that the call is lent."""
        return self.head + b"x" * self.fill

    @property
    def text(self):
        """The text that the call is lent."""
        return self.own_text + b"x" * self.text_fill

    @property
    def checked(self):
        """What the call must answer."""
        return check(self.context, self.source, self.rows, self.text, self.errors)

    def packed(self):
        """The record as it stands in stdin."""
        before = struct.pack("<HH", len(self.rows), len(self.errors)) + self.rows + self.errors + self.own_text
        numbers = len(self.rows) // NUMBER_BYTES + len(self.errors) // NUMBER_BYTES
        return packed(self.kind, len(self.text), numbers, self.fill, self.head, before)

    def line(self):
        """The record's line in stdout."""
        return " ".join(map(str, self.checked))


# ---------------------------------------------------------------------------------------------------------------------- transcripts

class Transcript(NamedTuple):
    """A source and its transcript, with rows and errors as tuples of numbers: what the cases damage."""
    context: str
    source: bytes
    rows: tuple
    text: bytes
    errors: tuple

    def call(self, **fields):
        """The call that checks it; rows and errors may be given as bytes in place of its own."""
        lent = {"rows": pack(self.rows), "errors": pack(self.errors)} | fields
        return Call(self.context, self.source, own_text=self.text, **lent)

    def with_row(self, number, source=0, text=0, errors=0):
        """With these numbers added to a row."""
        rows = list(self.rows)
        rows[number] = added(rows[number], (source, text, errors))
        return self._replace(rows=tuple(rows))

    def with_text(self, start, end, text):
        """With other bytes for those from `start` to `end` of its text."""
        return self._replace(text=self.text[:start] + text + self.text[end:])

    def with_errors(self, start, end, *errors):
        """With other errors for those from `start` to `end`."""
        return self._replace(errors=self.errors[:start] + errors + self.errors[end:])

    def starts(self, number):
        """Where a row begins in source, text and errors."""
        return tuple(sum(row[column] for row in self.rows[:number]) for column in range(3))

    def ends(self, number):
        """Where a row ends in source, text and errors."""
        return self.starts(number + 1)


def covered_part(context, source):
    """The covered part of a readable source, or None."""
    answer, stop = stop_of(source, context)
    return None if answer in (ILL_FORMED, NUL) else source[:stop]


def is_readable(context, source):
    """Whether the covered part gives neither 1 nor 2."""
    return covered_part(context, source) is not None


def good(context, source, cuts):
    """The good transcript of a readable source, whose rows end at the covered part's end and after as many pieces as the cuts say."""
    covered = covered_part(context, source)
    pieces = pieces_of(covered, context)
    text, errors = between(pieces, 0, len(covered))
    places = [at for at, _ in pieces] + [len(covered)]
    bounds = [places[cut] for cut in sorted({0, len(pieces), *cuts})]
    rows = []
    for start, end in zip(bounds, bounds[1:]):
        row_text, row_errors = between(pieces, start, end)
        rows.append((end - start, len(row_text), len(row_errors)))
    return Transcript(context, source, tuple(rows), text, tuple(errors))


def piece_count(context, source):
    """How many pieces the covered part has."""
    return len(pieces_of(covered_part(context, source), context))


def in_one_row(context, source):
    """The good transcript with one row for the whole."""
    return good(context, source, ())


def in_piece_rows(context, source):
    """The good transcript with a row for each piece."""
    return good(context, source, range(piece_count(context, source)))


def joined(context, source, draw):
    """A good transcript with pieces joined at random."""
    chance = draw.choice((0.2, 0.5, 0.8))
    return good(context, source, [cut for cut in range(piece_count(context, source)) if draw.random() < chance])


# ------------------------------------------------------------------------------------------------------- the paper's own sentences

def added(first, second):
    """Numbers added column by column."""
    return tuple(map(sum, zip(first, second)))


def is_joining(call):
    """A second definition of acceptance, by totals.

    The three columns, added up from row to row, are at each row's end what they are at some later piece end, and at last what they are at
    the last; and text and errors are those that decode whole gives.
    """
    source = call.source
    decoded = decode_whole(call.context, source, *enough_room(source))
    pieces = pieces_of(covered_part(call.context, source), call.context)
    sizes = [(piece.length, len(piece.text), len(piece.codes)) for _, piece in pieces]
    totals = list(accumulate(sizes, added, initial=(0, 0, 0)))
    reached = list(accumulate(unpack(call.rows, 3), added, initial=(0, 0, 0)))
    if any(earlier[0] >= later[0] for earlier, later in zip(reached, reached[1:])):
        return False
    return reached[-1] == totals[-1] and set(reached) <= set(totals) and call.text == decoded.text and tuple(unpack(call.errors, 2)) == decoded.errors


def check_sentences(call):
    """What the paper says of every call."""
    answer, verdict, row, place = call.checked
    whole = len(call.rows) % ROW_BYTES == 0 and len(call.errors) % ERROR_BYTES == 0
    if answer != ENDED:
        assert (answer == TOO_LONG) == (len(call.source) > MOST_SOURCE_BYTES)
        assert (answer == NOT_WHOLE) == (len(call.source) <= MOST_SOURCE_BYTES and not whole)
        assert (verdict, row) == (0, 0) and (place == 0 or answer in (ILL_FORMED, NUL))
        return
    rows = unpack(call.rows, 3)
    covered = covered_part(call.context, call.source)
    assert whole and place == 0
    assert (verdict == ACCEPTED) == is_joining(call)
    assert row < len(rows) or (verdict, row) in ((ACCEPTED, 0), (E, len(rows)))
    if verdict == ACCEPTED:
        columns = tuple(sum(numbers) for numbers in zip(*rows)) or (0, 0, 0)
        assert row == 0 and columns == (len(covered), len(call.text), len(call.errors) // ERROR_BYTES)


def check_decoded_passes():
    """What decode whole answers passes as one row, and a source that it refuses is refused with the same answer and place."""
    for source, context in product(short_sources(), CONTEXTS):
        decoded = decode_whole(context, source, *enough_room(source))
        if decoded.answer in (ILL_FORMED, NUL):
            assert check(context, source, b"", b"", b"") == Checked(decoded.answer, place=decoded.place), source
            continue
        covered_bytes = decoded.place if decoded.answer == 7 else len(source)
        rows = pack([(covered_bytes, decoded.text_bytes, len(decoded.errors))] if covered_bytes else [])
        assert check(context, source, rows, decoded.text, pack(decoded.errors)) == Checked(ENDED), source


def check_all_joinings():
    """Every joining of the pieces of a short source passes, and rows that end anywhere else do not."""
    for source, context in product((b"a&#128\r\n\xC3\xA9", b"&notit;x<y", b"\r\r\n&&lt", b'&not="', b"&fjlig;&a;\x01"), CONTEXTS):
        covered = covered_part(context, source)
        count = piece_count(context, source)
        passing = set()
        for size in range(count):
            for cuts in combinations(range(1, count), size):
                transcript = good(context, source, cuts)
                assert transcript.call().checked == Checked(ENDED)
                passing.add(tuple(row[0] for row in transcript.rows))
        text, errors = between(pieces_of(covered, context), 0, len(covered))
        for size in range(len(covered)):
            for cuts in combinations(range(1, len(covered)), size):
                bounds = (0, *cuts, len(covered))
                lengths = tuple(end - start for start, end in zip(bounds, bounds[1:]))
                parts = [between(pieces_of(covered, context), start, end) for start, end in zip(bounds, bounds[1:])]
                rows = pack((length, len(part[0]), len(part[1])) for length, part in zip(lengths, parts))
                verdict = check(context, source, rows, text, pack(errors)).verdict
                assert verdict == (ACCEPTED if lengths in passing else B), (source, lengths)


def check_marked():
    """Transcripts of marked sources, written out by hand."""
    def verdict_on(context, source, rows, text, errors):
        return check(context, source, pack(rows), text.encode(), pack(errors))

    accepted = Checked(ENDED)
    assert verdict_on(TEXT, b"", [], "", []) == accepted
    assert verdict_on(TEXT, b"", [(0, 0, 0)], "", []) == Checked(ENDED, A, 0)
    assert verdict_on(TEXT, b"&notit;x", [(8, 6, 1)], "¬it;x", [(2, 0)]) == accepted
    assert verdict_on(TEXT, b"&notit;x", [(4, 2, 1), (4, 4, 0)], "¬it;x", [(2, 0)]) == accepted
    assert verdict_on(TEXT, b"&notit;x", [(3, 2, 1), (5, 4, 0)], "¬it;x", [(2, 0)]) == Checked(ENDED, B, 0)
    assert verdict_on(ATTRIBUTE, b"&notit;x", [(8, 8, 0)], "&notit;x", []) == accepted
    assert verdict_on(ATTRIBUTE, b"&notit;x", [(8, 8, 1)], "&notit;x", [(4, 0)]) == Checked(ENDED, D, 0)
    assert verdict_on(ATTRIBUTE, b"&not=1", [(1, 1, 0), (5, 5, 0)], "&not=1", []) == accepted
    assert verdict_on(TEXT, b"&#128", [(5, 3, 2)], "€", [(2, 0), (3, 0)]) == accepted
    assert verdict_on(TEXT, b"&#128", [(5, 3, 2)], "€", [(3, 0), (2, 0)]) == Checked(ENDED, D, 0)
    assert verdict_on(TEXT, b"&#128", [(5, 3, 2)], "x", [(3, 0), (2, 0)]) == Checked(ENDED, C, 0)
    assert verdict_on(TEXT, b"&#13;\r\n", [(5, 1, 1), (2, 1, 0)], "\r\n", [(3, 0)]) == accepted
    assert verdict_on(TEXT, b"&#13;\r\n", [(5, 1, 1), (1, 1, 0), (1, 0, 0)], "\r\n", [(3, 0)]) == Checked(ENDED, B, 1)
    assert verdict_on(TEXT, b"a<b", [(1, 1, 0)], "a", []) == accepted
    assert verdict_on(TEXT, b"a<b", [(2, 1, 0)], "a", []) == Checked(ENDED, A, 0)
    assert verdict_on(TEXT, b"a<b", [(1, 1, 0)], "ab", []) == Checked(ENDED, E, 1)


# ---------------------------------------------------------------------------------------------------------- cases: good transcripts

def groups_of(parts, size):
    """Lists joined, `size` of their members at a time."""
    members = list(parts)
    return [b"".join(members[start:start + size]) for start in range(0, len(members), size)]


def name_groups():
    """Every name, with what may follow it in turn."""
    followers = (b"", b"x", b"=", b" ", b";", b"&", b"0")
    return groups_of((b"&" + name + followers[number % 7] for number, name in enumerate(NAMES)), 12)


def edge_groups():
    """The ends of the ranges of letters and digits, and their neighbours: after a name, as a name, as a digit and as a hex digit."""
    edges = [bytes([byte]) for byte in b"/09:@AFGZ[`afgz{"]
    return [b"".join(before + edge + b";" for edge in edges) for before in (b"&not", b"&", b"&#", b"&#x")]


def number_groups():
    """Every boundary of the number rules and all C1 numbers, in one spelling with `;` and one without."""
    numbers = sorted({*neighbourhood(NUMBER_RANGES), *C1_RANGE})
    return groups_of((f"&#{number};&#{'xX'[number % 2]}{number:x} ".encode() for number in numbers), 8)


def character_groups():
    """Characters that get error 5 and their neighbours, and every ASCII character that may be covered in both contexts."""
    values = [value for value in neighbourhood(ERROR_5_RANGES + LAST_TWO_OF_EACH_PLANE) if value <= 0x10FFFF]
    ascii_characters = [bytes([byte]) for byte in range(1, 128) if byte not in b'<"']
    return groups_of((chr(value).encode() for value in values if value), 16) + groups_of(ascii_characters, 64)


ENDS_INSIDE = (
    b"a&not<b", b'a&not"b', b"&lt<\xFF", b'&lt"\0', b"&#65<;", b'&#65";', b"\r<\n", b'\r"\n', b"&am<p;", b'&am"p;', b"<", b'"', b'"<', b'<"',
)
SEVERAL_BYTES = tuple(text.encode() for text in (
    "é", "€", "😀", "é€😀", "a\u00A0b", "\uFFFE\U0010FFFF", "\uFEFFa", "&é;", "&not１", "e\u0301&eacute\u0301", "&#x1F600;😀&#128512",
))
TWO_ERRORS = (b"&#128", b"&#0", b"&#x1&#x1", b"a&#13\r\n", b"&#xFFFE&not", b"&#128&#128;&#65&#65;", b"&fjlig;", b"&fjlig", b"&fjlig;&fjlig;x")


def mixed_sources():
    """The sources whose good transcripts are cut in every way."""
    yield from (source for _, source, _, _ in MARKED_SOURCES + ONLY_RUN)
    yield from ENDS_INSIDE + SEVERAL_BYTES + TWO_ERRORS


def good_transcripts():
    """Good transcripts: in one row, in a row a piece, and joined at random."""
    draw = random.Random(11)
    for source, context in product(mixed_sources(), CONTEXTS):
        if is_readable(context, source):
            yield from (in_one_row(context, source), in_piece_rows(context, source))
            if piece_count(context, source) > 3:
                yield joined(context, source, draw)
    for source, context in product(name_groups() + edge_groups(), CONTEXTS):
        yield in_one_row(context, source)
    for number, source in enumerate(number_groups() + character_groups()):
        yield in_one_row(CONTEXTS[number % 2], source)
    for source in (*line_break_sources(), *ampersand_sources(), *long_number_sources(), *random_sources(60, seed=12)):
        if len(source) <= 100:
            yield joined(draw.choice(CONTEXTS), source, draw)
    yield in_one_row(TEXT, BLOCK * 8)
    yield in_piece_rows(ATTRIBUTE, BLOCK * 2)


def good_calls():
    """Good transcripts of readable sources are accepted."""
    for transcript in good_transcripts():
        yield ACCEPTED, 0, transcript.call()


def long_calls():
    """Sources at the limit: their text has as many `x` as they have, one more or one fewer; and what is after the end counts as well."""
    for context, head in zip(CONTEXTS, (b"", b"\r\n&#128&notit;\xC3\xA9\x01&lt;")):
        short = in_one_row(context, head)
        fill = MOST_SOURCE_BYTES - len(head)
        row = (MOST_SOURCE_BYTES, len(short.text) + fill, len(short.errors))
        whole, less, more = pack([row]), pack([added(row, (-1, -1, 0))]), pack([added(row, (1, 0, 0))])
        in_two = pack([added(row, (-9, -9, 0)), (9, 9, 0)])
        yield ACCEPTED, 0, short.call(rows=whole, fill=fill, text_fill=fill)
        yield ACCEPTED, 0, short.call(rows=in_two, fill=fill, text_fill=fill)
        yield A, 0, short.call(rows=more, fill=fill, text_fill=fill)
        yield A, 0, short.call(rows=whole, fill=fill - 1, text_fill=fill)
        yield C, 0, short.call(rows=whole, fill=fill, text_fill=fill - 1)
        yield C, 1, short.call(rows=in_two, fill=fill, text_fill=fill - 1)
        yield E, 1, short.call(rows=whole, fill=fill, text_fill=fill + 1)
        yield E, 1, short.call(rows=less, fill=fill, text_fill=fill - 1)
    left = in_one_row(TEXT, b"&lt<")
    yield ACCEPTED, 0, left.call(fill=MOST_SOURCE_BYTES - 4)
    yield A, 0, left.with_row(0, source=1).call(fill=MOST_SOURCE_BYTES - 4)


# -------------------------------------------------------------------------------------------------- cases: damage of one kind each

# Each base has three rows, each with text and with a piece of several bytes; of the first two bases only the middle row has no errors.
BASES = (
    good(TEXT, b"a&#1\xC3\xA9\r\n&#0&a;<", (2, 4)),
    good(ATTRIBUTE, b'&#x81\x7F&fjlig;&&lt=\xE2\x82\xAC&not"', (2, 7)),
    good(TEXT, b"&#1&#2&#3", (1, 2)),
    good(ATTRIBUTE, b"&#128&amp\x7F\xF0\x9F\x98\x80\r\n&#x81;", (2, 3)),
)
PLACES = (0, 1, 2)
WRAP, HALF = 2**32, 2**31


def numbers_past(start, number, room):
    """What may be added to a row's number so that it ends past its room, `start` being where the row begins."""
    wanted = {room - start + 1, WRAP - 1, WRAP - 2, HALF, HALF - 1, HALF + number, WRAP - start, WRAP - start + 1, WRAP - 1 - start}
    return sorted(value - number for value in wanted if value < WRAP)


def damage_a(base, row):
    """No source bytes, and source bytes past the covered part."""
    covered = covered_part(base.context, base.source)
    own, start = base.rows[row][0], base.starts(row)[0]
    yield base.with_row(row, source=-own)
    for more in numbers_past(start, own, len(covered)):
        yield base.with_row(row, source=more)


def damage_b(base, row):
    """Every end that is within a piece, from the row's start on."""
    covered = covered_part(base.context, base.source)
    pieces = pieces_of(covered, base.context)
    end = base.ends(row)[0]
    inside = {at + step for at, piece in pieces for step in range(1, piece.length)}
    for place in sorted(inside):
        if base.starts(row)[0] < place:
            yield base.with_row(row, source=place - end)


def damage_c(base, row):
    """A byte of the text is another, is gone or is too many; the row's count is off; the text runs out."""
    start, end = base.starts(row)[1], base.ends(row)[1]
    own = base.rows[row][1]
    for at in {start, end - 1}:
        yield base.with_text(at, at + 1, bytes([base.text[at] ^ 1]))
        yield base.with_text(at, at + 1, bytes([base.text[at] ^ 0x80]))
        yield base.with_text(at, at + 1, b"")
    yield base.with_text(start, start, b"~")
    yield base.with_text(start, end, b"")
    yield base.with_text(end - 1, len(base.text), b"")
    yield base.with_text(start, len(base.text), b"")
    yield from (base.with_row(row, text=-1), base.with_row(row, text=1), base.with_row(row, text=-own))
    if row < 2:
        yield base.with_row(row, text=1).with_row(row + 1, text=-1)
        yield base.with_row(row, text=-1).with_row(row + 1, text=1)
    for more in numbers_past(start, own, len(base.text))[row % 2::2]:
        yield base.with_row(row, text=more)


def wrong_errors(code, place):
    """Errors that are nearly this one."""
    yield from ((code + 1, place), (code - 1, place), (0, place), (code + HALF, place), (code + 256, place))
    yield from ((code, place + 1), (code, place + HALF), (code, place + 65_536), (code, WRAP - 1))
    if place not in (0, code):
        yield from ((code, place - 1), (code, 0), (place, code))


def damage_d(base, row):
    """An error of the row is another, is gone or is too many; two are swapped; the row's count is off; the errors run out."""
    start, end = base.starts(row)[2], base.ends(row)[2]
    own = base.rows[row][2]
    for at in {start, end - 1} if own else ():
        yield from (base.with_errors(at, at + 1, error) for error in wrong_errors(*base.errors[at]))
        yield from (base.with_errors(at, at + 1), base.with_errors(at, len(base.errors)))
        if row:
            code, place = base.errors[at]
            yield base.with_errors(at, at + 1, (code, place - base.starts(row)[0]))
    if own > 1:
        yield base.with_errors(start, start + 2, base.errors[start + 1], base.errors[start])
    yield base.with_row(row, errors=1)
    if own:
        yield base.with_errors(start, start, (7, 7))
        yield from (base.with_row(row, errors=-1), base.with_row(row, errors=-own))
        if row < 2:
            yield base.with_row(row, errors=-1).with_row(row + 1, errors=1)
    if row < 2 and base.rows[row + 1][2]:
        yield base.with_row(row, errors=1).with_row(row + 1, errors=-1)
    yield from (base.with_row(row, errors=2**power) for power in (29, 30, 31))
    for more in numbers_past(start, own, len(base.errors))[row % 2::2]:
        yield base.with_row(row, errors=more)


ROW_DAMAGES = {A: damage_a, B: damage_b, C: damage_c, D: damage_d}


def damage_e(base):
    """Source, text or errors remain, alone and together; every row too few."""
    yield from (base._replace(text=base.text + more) for more in (b"\n", b"more", b"\xFF", b"\0"))
    yield from (base._replace(errors=base.errors + more) for more in (((5, 0),), ((0, 0),), ((2, 1), (3, 1))))
    yield base._replace(text=base.text + b"x", errors=base.errors + ((5, 0),))
    for count in PLACES:
        _, text, errors = base.starts(count)
        fewer = base._replace(rows=base.rows[:count])
        yield from (fewer, fewer._replace(text=base.text[:text], errors=base.errors[:errors]))
        yield from (fewer._replace(text=base.text[:text]), fewer._replace(errors=base.errors[:errors]))


def row_damages():
    """Each of a to d at the first, the middle and the last row: all on the first base, and fewer on each later one."""
    for number, base in enumerate(BASES):
        for row, (reason, damage) in product(PLACES, ROW_DAMAGES.items()):
            for damaged in list(damage(base, row))[row * number % 2::1 + 2 * number]:
                yield reason, row, damaged.call()


def end_damages():
    """Each way to e."""
    for base in BASES:
        for damaged in damage_e(base):
            yield E, len(damaged.rows), damaged.call()


def empty_calls():
    """Nothing is covered: no row is right, and every row is wrong."""
    for context, source in product(CONTEXTS, (b"", b"<", b'"', b'<"&lt', b'"<\xFF\0')):
        if covered_part(context, source) != b"":
            continue
        empty = Transcript(context, source, (), b"", ())
        yield ACCEPTED, 0, empty.call()
        yield from ((A, 0, empty._replace(rows=rows).call()) for rows in (((0, 0, 0),), ((1, 0, 0),), ((0, 1, 1),), ((1, 1, 0),)))
        yield A, 0, empty._replace(rows=((0, 0, 0), (0, 0, 0)), text=b"x", errors=((5, 0),)).call()
        yield E, 0, empty._replace(text=b"<").call()
        yield E, 0, empty._replace(errors=((5, 0),)).call()
        yield E, 0, empty._replace(text=b"x", errors=((5, 0),)).call()
    for context in CONTEXTS:
        spare = in_one_row(context, b"ab\r\n")
        yield from ((A, 1, spare._replace(rows=spare.rows + more).call()) for more in (((0, 0, 0),), ((1, 0, 0),), ((0, 1, 0), (0, 0, 1))))
        yield A, 0, spare._replace(rows=((0, 0, 0),) + spare.rows).call()
        yield A, 1, spare._replace(rows=((2, 2, 0), (0, 0, 0), (2, 1, 0))).call()


# ------------------------------------------------------------------------------------------------------- cases: two kinds at once

def first_that_applies(faults):
    """The earlier row, and in a row the earlier letter."""
    return min(faults, key=lambda fault: (fault[1], fault[0]))


def one_damage(transcript, base, reason, row):
    """One damage of a kind to a row, made so that it can stand beside those of other kinds."""
    source, text, errors = base.starts(row)
    _, text_end, _ = base.ends(row)
    if reason == A:
        return transcript.with_row(row, source=WRAP - 1 - transcript.rows[row][0])
    if reason == B:
        return transcript.with_row(row, source=1)
    if reason == C:
        return transcript.with_text(text_end - 1, text_end, b"~")
    if reason == D:
        return transcript.with_errors(errors, errors + 1, (9, source))
    return transcript._replace(text=transcript.text + b"~")


# After each row but the last a piece of several bytes stands, so that a row with one byte more ends within it.
PAIR_BASE = good(TEXT, b"a\x01\xC3\xA9\x02\r\n\x03\xE2\x82\xAC<", (2, 4, 6))
LAST_ROW = len(PAIR_BASE.rows) - 1


def pair_faults():
    """Every reason at every row but the last, whose end is the covered part's; and e."""
    return [(reason, row) for reason, row in product((A, B, C, D), range(LAST_ROW))] + [(E, LAST_ROW + 1)]


def pair_calls():
    """Damage of two kinds: the first reason that applies is given."""
    for first, second in combinations(pair_faults(), 2):
        if first[1] == second[1] and {first[0], second[0]} == {A, B}:
            continue
        damaged = one_damage(one_damage(PAIR_BASE, PAIR_BASE, *first), PAIR_BASE, *second)
        reason, row = first_that_applies((first, second))
        yield reason, row, damaged.call()


def within_row_calls():
    """In one row of many pieces: an early reason of a later letter, and a late reason of an earlier letter."""
    for context in CONTEXTS:
        base = in_one_row(context, b"\x01a&#1b\x7F&lt;\xC3\xA9\r\n")
        early_error, late_error = (base.with_errors(0, 1, (5, 1)), base.with_errors(3, 4, (5, 7)))
        late_text, early_text = base.text[:-1] + b"\r", b"~" + base.text[1:]
        yield C, 0, early_error._replace(text=late_text).call()
        yield C, 0, late_error._replace(text=early_text).call()
        yield C, 0, early_error.with_row(0, text=1).call()
        yield C, 0, early_error._replace(text=base.text[:-1]).call()
        yield C, 0, early_error.with_row(0, text=-1, errors=1).call()
        yield C, 0, base._replace(errors=(), text=b"").call()
        yield D, 0, early_error._replace(text=base.text + b"x").call()
        yield D, 0, base._replace(errors=(), text=base.text + b"x").call()
        yield B, 0, base.with_row(0, source=-1)._replace(text=early_text).call()
        yield B, 0, base.with_row(0, source=-1)._replace(text=b"", errors=()).call()
        yield B, 0, early_error.with_row(0, source=-3).call()
        yield A, 0, early_error.with_row(0, source=1)._replace(text=early_text).call()
        yield A, 0, base.with_row(0, source=1)._replace(text=b"", errors=()).call()
        yield A, 0, base._replace(rows=((0, 0, 0),), text=b"", errors=()).call()


def piece_end_calls():
    """A row that ends at each place of a source in turn, with the text and the errors of the pieces before that place."""
    for context, source in product(CONTEXTS, (b"a\xC3\xA9\r\n&not=&#128;&fjlig;\xF0\x9F\x98\x80\r&ab;",)):
        pieces = pieces_of(source, context)
        ends = {at + piece.length for at, piece in pieces}
        for end in range(1, len(source) + 1):
            text, errors = between(pieces, 0, end)
            reason, row = (B, 0) if end not in ends else (ACCEPTED, 0) if end == len(source) else (E, 1)
            rows = ((end, len(text), len(errors)),)
            yield reason, row, Transcript(context, source, rows, text, tuple(errors)).call()


# -------------------------------------------------------------------------------------- cases: many rows of one byte, and long runs

PLAIN = b"Bytes that stand for themselves in both contexts, a tab\tand an LF\namong them; no one of them has an error > 0. "


def plain(length):
    """So many bytes, each of them a piece and its own text, without an error."""
    return (PLAIN * (length // len(PLAIN) + 1))[:length]


def as_it_stands(context, source):
    """A row for each byte, and the source itself for its text: good where all of it is plain."""
    return Transcript(context, source, ((1, 1, 0),) * len(source), source, ())


def wrong_at(base, row):
    """A row of one plain byte that is wrong: another text byte, and each of its numbers another, some of them the same in their lowest byte."""
    way = row % 3
    yield C, row, base.with_text(row, row + 1, bytes([base.text[row] ^ 1])).call()
    yield A, row, base.with_row(row, source=(-1, 2**24, WRAP - 2)[way]).call()
    yield C, row, base.with_row(row, text=(-1, 2**16, WRAP - 2)[way]).call()
    yield D, row, base.with_row(row, errors=(1, WRAP - 1, 2**8)[way]).call()


def many_row_calls():
    """Rows of one plain byte each, in numbers around 32 and 64: good, one of them wrong, or something short or left at their end."""
    for number, length in enumerate((31, 32, 33, 64, 65)):
        yield ACCEPTED, 0, as_it_stands(CONTEXTS[number % 2], plain(length)).call()
    for row in (0, 31, 32):
        yield from wrong_at(as_it_stands(CONTEXTS[row % 2], plain(33)), row)
    for row in (32, 63, 64):
        yield from list(wrong_at(as_it_stands(CONTEXTS[row % 2], plain(65)), row))[row % 2:row % 2 + 3:2]
    base = as_it_stands(TEXT, plain(32))
    yield ACCEPTED, 0, base._replace(source=base.source + b"<x").call()
    yield A, 31, base._replace(source=plain(31) + b"<x").call()
    yield A, 32, base._replace(rows=base.rows + ((1, 1, 0),), text=plain(33)).call()
    yield C, 31, base._replace(text=plain(31)).call()
    yield E, 32, base._replace(text=plain(33)).call()
    yield E, 32, base._replace(source=plain(33)).call()
    yield E, 32, base._replace(errors=((5, 31),)).call()


def among_plain_calls():
    """Among rows of one plain byte each a piece that is not plain, right and wrong."""
    for number, (piece, at) in enumerate(((b"\x01", 31), (b"\r", 31), (b"& ", 31), (b"&#", 30), (b"\x7F\x0C", 0), (b"&lt;", 0))):
        base = in_piece_rows(CONTEXTS[number % 2], plain(at) + piece + plain(64 if piece == b"&lt;" else 33 - at - len(piece)))
        yield ACCEPTED, 0, base.call()
        if piece == b"&lt;":
            yield C, 63, base.with_text(63, 64, b"~").call()
    for number, (piece, reason) in enumerate(((b"\x01", D), (b"&#", D), (b"\r ", C), (b"&lt;", B), (b"\r\n", B), (b"\xC3\xA9", B))):
        yield reason, 28, as_it_stands(CONTEXTS[number % 2], plain(28) + piece + plain(4 - len(piece))).call()


def long_run_calls():
    """One row with long runs of plain bytes: a text byte is another, also where a later reason comes first."""
    for number, before in enumerate((b"", b"&lt;")):
        base = in_one_row(CONTEXTS[number], before + plain(65) + b"\x01")
        yield ACCEPTED, 0, base.call()
        for at in (0, 31, 32, 63, 64):
            yield C, 0, base.with_text(at + number, at + number + 1, b"~").call()
        yield D, 0, base.with_errors(0, 1, (5, 64)).call()
    ending = in_one_row(TEXT, plain(40) + b"\xC3\xA9")
    yield B, 0, ending.with_row(0, source=-1).with_text(0, 1, b"~").call()


def late_stop_calls():
    """After as many plain bytes as are passed at once, and one more or fewer: a fault, and the context's end."""
    for number, (length, fault) in enumerate(product((63, 64, 128), (b"\0", b"\xFF", b"\xE2\x82"))):
        yield as_it_stands(CONTEXTS[number % 2], plain(length) + fault)._replace(rows=(), text=b"").call()
    for context, end, length in ((TEXT, b"<", 63), (ATTRIBUTE, b'"', 64), (TEXT, b"<", 65), (ATTRIBUTE, b'"', 128)):
        yield in_one_row(context, plain(length) + end + b"\0").call()


# ------------------------------------------------------------------------------------------------------------- cases: other answers

def refusal_calls():
    """Answers 3, 10, 1 and 2, and what comes before what."""
    whole = pack([(1, 1, 0)])
    odd_rows = [pack([numbers]) for numbers in ((1,), (1, 1), (1, 1, 0, 1), (1, 1, 0, 0, 0))] + [whole[:size] for size in (1, 2, 3, 5, 9, 11)]
    odd_errors = [pack([numbers]) for numbers in ((5,), (5, 0, 5))] + [pack([(5, 0)])[:size] for size in (1, 2, 3, 5, 7)]
    odd_rows, odd_errors = odd_rows + [whole + b"\0"], odd_errors + [pack([(5, 0)]) + b"\0\0\0"]
    for number, source in enumerate((b"a", b"\xFF", b"\0", b"\xE2\x82", b"a<", b"")):
        transcript = Transcript(CONTEXTS[number % 2], source, ((1, 1, 0),), b"a", ())
        for rows in odd_rows:
            yield transcript.call(rows=rows)
        for errors in odd_errors:
            yield transcript.call(errors=errors)
        yield from (transcript.call(rows=b"", errors=b"\1"), transcript.call(rows=odd_rows[1], errors=odd_errors[0]))
        yield from (transcript.call(rows=b"\1", errors=b"\1\1\1"), transcript.call(rows=b"\1\1", errors=b"\1\1"))
    for context, head in product(CONTEXTS, (b"a", b"\xFF", b"\0", b'a<"')):
        transcript = in_one_row(context, b"a")._replace(source=head)
        for length in (MOST_SOURCE_BYTES, MOST_SOURCE_BYTES + 1):
            lent = {"fill": length - len(head)}
            yield from (transcript.call(**lent), transcript.call(rows=b"", **lent), transcript.call(rows=whole[:4], **lent))
            yield from (transcript.call(errors=b"\1\0\0\0", **lent), transcript.call(rows=b"\1", **lent), transcript.call(errors=b"\1", **lent))


def fault_calls():
    """Ill-formed bytes, cut-off characters and NUL, before and after the context's end, with rows and without."""
    faulty = [before + fault + after for number, fault in enumerate(FAULTS) for before, after in FAULT_SURROUNDINGS[number % 2::2]]
    for number, source in enumerate([*faulty, *nul_sources()]):
        transcript = Transcript(CONTEXTS[number // 3 % 2], source, ((len(source), len(source), 0),) * (number % 2), source * (number % 2), ())
        yield transcript.call()
    for context, source in product(CONTEXTS, (b"ab\xFF", b"ab\0", b"ab\xE2\x82", b'ab<"\xFF', b'ab"<\0', b"ab<\xE2\x82", b'ab"\xE2\x82')):
        transcript = in_one_row(context, b"ab")._replace(source=source)
        yield from (transcript.call(), transcript.with_row(0, source=1).call(), transcript.with_row(0, text=HALF).call())
        yield transcript.with_row(0, errors=1)._replace(rows=((0, 0, 0),)).call()


# ------------------------------------------------------------------------------------------------------------ cases: random damages

ODD_NUMBERS = (0, 1, 2, 3, 255, 256, 65_535, 65_536, HALF - 1, HALF, HALF + 1, WRAP - 2, WRAP - 1)


def other_number(draw, number):
    """A number near this one, or far away."""
    if draw.random() < 0.6:
        return max(0, number + draw.choice((-2, -1, 1, 2)))
    return draw.choice((*ODD_NUMBERS, (WRAP - number) % WRAP))


def other_group(draw, groups):
    """Rows or errors in which one number is another."""
    if not groups:
        return groups
    changed = [list(group) for group in groups]
    group = draw.choice(changed)
    column = draw.randrange(len(group))
    group[column] = other_number(draw, group[column])
    return tuple(map(tuple, changed))


def rearranged(draw, groups, spare):
    """Rows or errors with one gone, doubled, put in or swapped with the next."""
    changed = list(groups)
    at = draw.randrange(len(changed) + 1)
    way = draw.randrange(4)
    if way == 0:
        changed.insert(at, spare)
    elif way == 1 and at < len(changed):
        changed.insert(at, changed[at])
    elif way == 2 and at + 1 < len(changed):
        changed[at], changed[at + 1] = changed[at + 1], changed[at]
    else:
        del changed[at:at + 1]
    return tuple(changed)


def other_bytes(draw, whole, alphabet):
    """Bytes with one another, gone or put in."""
    at = draw.randrange(len(whole) + 1)
    way = draw.randrange(3)
    new = b"" if way == 0 else draw.choice(alphabet)
    return whole[:at] + new + whole[at + (way < 2):]


def split_row(draw, transcript):
    """A row in two, each number split anywhere; what the whole adds up to stays."""
    rows = list(transcript.rows)
    if not rows:
        return transcript
    at = draw.randrange(len(rows))
    first = tuple(draw.randint(0, number) for number in rows[at])
    rows[at:at + 1] = [first, tuple(number - part for number, part in zip(rows[at], first))]
    return transcript._replace(rows=tuple(rows))


def moved_bound(draw, transcript):
    """Something of one column goes from a row to its neighbour; what the whole adds up to stays."""
    if len(transcript.rows) < 2:
        return transcript
    at, column = draw.randrange(len(transcript.rows) - 1), draw.choice(("source", "source", "text", "errors"))
    index = ("source", "text", "errors").index(column)
    step = draw.choice((-1, 1))
    if min(transcript.rows[at][index] + step, transcript.rows[at + 1][index] - step) < 0:
        return transcript
    return transcript.with_row(at, **{column: step}).with_row(at + 1, **{column: -step})


SOURCE_LETTERS = LETTERS + [b"\xFF", b"\xE2", b"\0"]
TEXT_LETTERS = [bytes([byte]) for byte in b"a&x\n\r\xC3\xE2\x80\xFF\0"]


def damaged_once(draw, transcript):
    """A transcript with one damage, which may leave it as good as it was."""
    way = draw.choices(("row", "split", "bound", "rows", "text", "error", "errors", "source", "end"), (5, 2, 4, 1, 4, 4, 1, 3, 1))[0]
    if way == "row":
        return transcript._replace(rows=other_group(draw, transcript.rows))
    if way == "split":
        return split_row(draw, transcript)
    if way == "bound":
        return moved_bound(draw, transcript)
    if way == "rows":
        return transcript._replace(rows=rearranged(draw, transcript.rows, (1, 1, 0)))
    if way == "text":
        return transcript._replace(text=other_bytes(draw, transcript.text, TEXT_LETTERS))
    if way == "error":
        return transcript._replace(errors=other_group(draw, transcript.errors))
    if way == "errors":
        return transcript._replace(errors=rearranged(draw, transcript.errors, (draw.randint(1, 5), 0)))
    if way == "source":
        return transcript._replace(source=other_bytes(draw, transcript.source, SOURCE_LETTERS))
    return transcript._replace(source=transcript.source + draw.choice((b"<", b'"', b"x", b"\n", b";")))


RANDOM_LETTERS = [letter for letter in LETTERS if letter not in (b"<", b'"')]
RANDOM_PARTS = (RANDOM_LETTERS, BEGINNINGS, [b"\r\n", b"&lt;", b"&#128", b"&#0;", b"&fjlig;", b"&not", b"&a;", b"\x01", "é".encode()])


def random_calls(count, seed):
    """Short good transcripts with one damage or two."""
    draw = random.Random(seed)
    for _ in range(count):
        context = draw.choice(CONTEXTS)
        source = b"".join(draw.choice(draw.choice(RANDOM_PARTS)) for _ in range(draw.randint(1, 4)))
        transcript = joined(context, source, draw)
        damaged = damaged_once(draw, transcript)
        if draw.random() < 0.25:
            damaged = damaged_once(draw, damaged)
        if damaged != transcript:
            yield damaged.call()


# ---------------------------------------------------------------------------------------------------------------------- all of them

def reasoned_calls():
    """The calls that were made for one reason, with it and its row."""
    for group in (good_calls, long_calls, row_damages, end_damages, empty_calls, pair_calls, within_row_calls, piece_end_calls,
                  many_row_calls, among_plain_calls, long_run_calls):
        for reason, row, call in group():
            assert call.checked == Checked(ENDED, reason, row), (group.__name__, reason, row, call, call.checked)
            yield call


def all_calls():
    """Every case, in order; some come twice."""
    yield from reasoned_calls()
    yield from refusal_calls()
    yield from fault_calls()
    yield from late_stop_calls()
    yield from random_calls(1450, seed=13)


def check_model():
    """The model holds against the paper's sentences."""
    check_marked()
    check_decoded_passes()
    check_all_joinings()


def transcript_records():
    """The records, each once, after the model was checked, also on each of them."""
    check_model()
    calls = list(dict.fromkeys(all_calls()))
    for call in calls:
        check_sentences(call)
    return calls


def summary(calls):
    """How many calls there are for each verdict, or answer that has none; 0 is accepted."""
    counts = Counter("abcde"[call.checked.verdict - 1] if call.checked.verdict else call.checked.answer for call in calls)
    return ", ".join(f"{count} of {name}" for name, count in sorted(counts.items(), key=str))


if __name__ == "__main__":
    RECORDS = transcript_records()
    print(f"{len(RECORDS)} records, {sum(len(call.packed()) for call in RECORDS)} bytes: {summary(RECORDS)}")
