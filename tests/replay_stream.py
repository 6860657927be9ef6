"""A second reading of the chunk decoder: what each call of a stream must answer, written down for a replay.

Made from the paper alone: document 01 (what the bench reads, pieces, the chunk decoder, table of answers) and its settled readings; of
the project only the fields of the record are known here. Names, characters and pieces are those of replay_whole.py, which is made in
the same way. Only the standard library is needed.

    python3 tests/replay_stream.py FOLDER

writes to that folder stdin, a list of records to be replayed, and stdout, one line for each. They are the second part of those of crates/replay,
where the parts stand one after the other; tests/replay does all of it.

    list     the letter S, how many bytes the records have (4 bytes, little-endian), and the records
    record   kind, text room, error room, fill, n, m: 1 + 4 + 4 + 4 + 2 + 2 bytes, numbers little-endian; then m bytes; then n bytes.
             The source is the n bytes and then `fill` times `x`.

    T, A     A source in text or in an attribute; the m bytes are lengths of chunks, two bytes each, which together make the source.
             A new stream is fed the source in two chunks, cut at every place from 0 to its end, and byte by byte, each time with room
             for 64 text bytes and 8 error numbers, and then in the given chunks with the given rooms. The bytes that an answer 6 leaves
             are handed in again; after any other answer the next chunk comes, and after the last chunk the end.
             Line: KIND MARKS CALLS SUM | CALL | CALL .. | STREAM
    t, a     The same without the cuts, for long sources. Line: KIND | CALL | CALL .. | STREAM
    R        A stream's record, the m bytes, and a chunk, the source. The stream is ended; it is fed the chunk; and what this hands back
             is ended, all with the given rooms. Line: KIND | CALL STREAM | CALL STREAM | CALL STREAM

    CALL     ANSWER TAKEN TEXT ERRORS PLACE HEX CODE@PLACE CODE@PLACE ..; HEX is the written text, as in replay_whole.py
    STREAM   CONTEXT STATE@PLACE STORE/COUNT PART/COUNT TAKEN. STATE is a letter: D data, R after CR, B `&`, O `&#`, H `&#x`, N a number,
             with BASE=VALUE, L the letters of a name, W of no name (bogus), C closed. STORE and PART are all their bytes in hex but for
             zeros at the end, `-` if none is left
    MARKS    four hex digits for each cut, from 0 on, and four for the source byte by byte: the high half of the sum of these calls
    CALLS    how many calls these were, and SUM the sum of the sums

A line ends with ` TOUCHED` if a call changed a room past what it wrote. The sum takes in all that a call hands back, the text and the
errors written among it.

    python3 tests/replay_stream.py FOLDER NUMBER

prints the source or the record of the line of FOLDER/stdout with this number, counted from 1, and all calls behind it, cut by cut.

First comes the model, then its own test, then runs and lines, and the cases last. The model goes byte by byte and holds bytes back;
before anything is written it is held, for every source and after every call of every cut, against a definition that looks at the bytes
taken so far as a whole: the text and errors of all but the held ending, and the record that this ending gives.
"""

import random
import re
import struct
import sys
from functools import lru_cache
from itertools import product
from pathlib import Path
from typing import NamedTuple

from replay_whole import (
    ATTRIBUTE, BEGINNINGS, BLOCK, C1_RANGE, CONTEXT_END, CONTEXTS, ENDED, ILL_FORMED, LEFT, LETTERS, MARKED_SOURCES, NAMES, NUL, NUMBER,
    ONLY_RUN, TEXT, TOO_LONG, UNKNOWN_NAME, WELL_FORMED, ampersand_sources, blocks, character_at, check_examples, check_names, error_list,
    faulty_sources, first_stop, line_break_sources, longest_name, nul_sources, packed, piece_at, read_pieces, write_part,
    written,
)

# ----------------------------------------------------------------------------------------------------------------- the model: the record

TAKEN_TOO_MUCH, ROOMS_TOO_SMALL, ROOM_USED_UP, STREAM_CLOSED = 4, 5, 6, 8

MOST_CHUNK_BYTES, MOST_TAKEN = 65_536, 16_777_216
LEAST_TEXT_ROOM, LEAST_ERROR_ROOM = 64, 8
STORE_BYTES, PART_BYTES = 32, 3
VALUE_STOP = 0x110000

DATA, AFTER_CR, BEGIN, OCTOTHORPE, HEX_BEGIN, NUMERIC, NAMED, BOGUS_NAME, CLOSED = STATES = "DRBOHNLWC"


class Stream(NamedTuple):
    """A stream between two calls: the fields of the record, with all bytes of its store and of its incomplete character."""
    context: str
    state: str = DATA
    base: int = 0
    value: int = 0
    place: int = 0
    store: bytes = bytes(STORE_BYTES)
    count: int = 0
    part: bytes = bytes(PART_BYTES)
    part_count: int = 0
    taken: int = 0


class Call(NamedTuple):
    """What a call hands back, and the text and the errors that it wrote."""
    answer: int
    record: Stream
    taken: int = 0
    text: bytes = b""
    errors: tuple = ()
    place: int = 0


def begins_character(some):
    """Whether some well-formed character has these bytes first, or is just them."""
    return any(len(some) <= len(form) and all(byte in allowed for byte, allowed in zip(some, form)) for form in WELL_FORMED)


def is_whole(some):
    """Whether these bytes, which begin a character, are all of it."""
    return character_at(some, 0) == some


# Beginnings of names that are held: any but the names ending in `;`.
HELD_NAMES = {name[:length] for name in NAMES for length in range(1, len(name) + 1)} - {name for name in NAMES if name.endswith(b";")}
HELD_NUMBER = re.compile(rb"&#(?:[0-9]*|[xX][0-9A-Fa-f]*)")
LETTERS_AND_DIGITS = re.compile(rb"&[0-9A-Za-z]+")


def is_held(some):
    """Whether these bytes, from an `&` on, are of a form that is held."""
    return some == b"&" or bool(HELD_NUMBER.fullmatch(some)) or (some[:1] == b"&" and some[1:] in HELD_NAMES)


def is_bogus_name(some):
    """Whether these are an `&` and letters or digits that match no name, so that only error 4 waits."""
    return bool(LETTERS_AND_DIGITS.fullmatch(some)) and not is_held(some) and longest_name(some, 1) is None


@lru_cache(maxsize=None)
def state_of_held(held):
    """The state, base, value and stored bytes for held bytes: of digits only the number is kept, and it stops."""
    number = NUMBER.fullmatch(held)
    if number and number["decimal"]:
        return NUMERIC, 10, min(int(number["decimal"]), VALUE_STOP), held[:2]
    if number:
        return NUMERIC, 16, min(int(number["hex"], 16), VALUE_STOP), held[:3]
    return {b"": DATA, b"&": BEGIN, b"&#": OCTOTHORPE, b"&#x": HEX_BEGIN, b"&#X": HEX_BEGIN}.get(held, NAMED), 0, 0, held


def stores_of_state(record, store):
    """Whether the store is what the state says."""
    if record.state in (DATA, AFTER_CR, BOGUS_NAME):
        return store == b""
    if record.state == NUMERIC:
        return (record.base, store) in ((10, b"&#"), (16, b"&#x"), (16, b"&#X"))
    return is_held(store) and state_of_held(store) == (record.state, 0, 0, store)


def is_open(record):
    """A record whose bytes are of the forms, whose counts keep the limits, and whose places and held bytes keep its taken count."""
    store, part = record.store[:record.count], record.part[:record.part_count]
    return (record.count <= STORE_BYTES and record.part_count <= PART_BYTES and record.taken <= MOST_TAKEN
            and stores_of_state(record, store) and (not part or (begins_character(part) and not is_whole(part)))
            and record.place <= record.taken and record.count + record.part_count <= record.taken)


# ------------------------------------------------------------------------------------------------------------------ the model: the calls

class Reading:
    """A stream inside a call: what it holds, as the source bytes, and what it has written."""

    def __init__(self, record):
        self.context, self.taken, self.part = record.context, record.taken, record.part[:record.part_count]
        self.held, self.place = record.store[:record.count], record.place
        self.after_cr, self.bogus = record.state == AFTER_CR, record.state == BOGUS_NAME
        if record.state == NUMERIC:  # some digits that give the value
            value = min(record.value, VALUE_STOP)
            self.held += (f"{value}" if record.base == 10 else f"{value:x}").encode()
        self.text, self.errors = b"", ()

    def record(self):
        """The record: bytes past the counts are 0, and so is a place where nothing has one."""
        state, base, value, store = state_of_held(self.held)
        if not self.held:
            state = AFTER_CR if self.after_cr else BOGUS_NAME if self.bogus else DATA
        place = self.place if self.held or self.bogus else 0
        return Stream(self.context, state, base, value, place, store.ljust(STORE_BYTES, b"\0"), len(store),
                      self.part.ljust(PART_BYTES, b"\0"), len(self.part), self.taken)

    def closed(self):
        """The record of a stream that closes: it keeps its context and taken count and nothing else."""
        return Stream(self.context, CLOSED, taken=self.taken)

    def write(self, piece, place):
        """Writes a piece that begins at a place."""
        self.text += piece.text
        self.errors += tuple((code, place) for code in piece.codes)

    def write_held(self):
        """Reads what is held as the last pieces."""
        text, errors = read_pieces(self.held, self.context)
        self.text += text
        self.errors += tuple((code, self.place + offset) for code, offset in errors)

    def take(self, byte):
        """Takes a byte, and its character if that is now whole."""
        self.taken += 1
        self.part += byte
        if is_whole(self.part):
            character, self.part = self.part, b""
            self.take_character(character)

    def take_character(self, character):
        """A character is held, or settles what is held, or goes on after a bogus name, or is read for itself."""
        if self.held and is_held(self.held + character):
            self.held += character
        elif self.held:
            self.settle(character)
        elif self.bogus:
            self.go_on_with_name(character)
        else:
            self.read_afresh(character)

    def settle(self, character):
        """Releases what is held: its piece, whatever of it the piece leaves, and the character unless it is the piece's own `;`."""
        source, held = self.held + character, len(self.held)
        piece = piece_at(source, 0, self.context)
        self.write(piece, self.place)
        self.held = b""
        self.text += source[piece.length:held]
        if is_bogus_name(source):
            self.bogus = True
            self.text += character
        elif piece.length < len(source):
            self.read_afresh(character)

    def go_on_with_name(self, character):
        """Letters and digits after an `&` that match no name are written at once; the error waits for their `;`."""
        if character.isalnum():
            self.text += character
            return
        self.bogus = False
        if character == b";":
            self.errors += ((UNKNOWN_NAME, self.place),)
        self.read_afresh(character)

    def read_afresh(self, character):
        """A character with nothing held before it: `&` is held, CR writes LF at once, and an LF after it nothing."""
        place = self.taken - len(character)
        if character == b"&":
            self.held, self.place = character, place
        elif not (self.after_cr and character == b"\n"):
            self.write(piece_at(character, 0, self.context), place)
        self.after_cr = character == b"\r"


def stop_at(reading, byte):
    """The answer of a byte that is not taken, or None: 1, then 2, then 7."""
    if not begins_character(reading.part + byte):
        return ILL_FORMED
    if byte == b"\0" and not reading.part:
        return NUL
    if byte == CONTEXT_END[reading.context] and not reading.part:
        return LEFT
    return None


def has_room(reading, text_room, error_room):
    """Whether a further byte may be taken."""
    return text_room - len(reading.text) >= LEAST_TEXT_ROOM and error_room - 2 * len(reading.errors) >= LEAST_ERROR_ROOM


def refusal(record, chunk, text_room, error_room):
    """The answer of a feed that changes nothing, or None: 8, then 3, 4, 5."""
    if not is_open(record):
        return STREAM_CLOSED
    if len(chunk) > MOST_CHUNK_BYTES:
        return TOO_LONG
    if record.taken + len(chunk) > MOST_TAKEN:
        return TAKEN_TOO_MUCH
    if text_room < LEAST_TEXT_ROOM or error_room < LEAST_ERROR_ROOM:
        return ROOMS_TOO_SMALL
    return None


def stopped(reading, answer, before):
    """A feed that ends with 1, 2 or 7."""
    if answer == LEFT:
        reading.write_held()
    place = reading.taken - len(reading.part)
    return Call(answer, reading.closed(), reading.taken - before, reading.text, reading.errors, place)


@lru_cache(maxsize=None)
def feed(record, chunk, text_room, error_room):
    """Feeds a chunk: at each byte 6, 1, 2, 7, and 0 when all are taken."""
    refused = refusal(record, chunk, text_room, error_room)
    if refused is not None:
        return Call(refused, record)
    reading = Reading(record)
    for at in range(len(chunk)):
        byte = chunk[at:at + 1]
        if not has_room(reading, text_room, error_room):
            return Call(ROOM_USED_UP, reading.record(), reading.taken - record.taken, reading.text, reading.errors)
        answer = stop_at(reading, byte)
        if answer is not None:
            return stopped(reading, answer, record.taken)
        reading.take(byte)
    return Call(ENDED, reading.record(), len(chunk), reading.text, reading.errors)


@lru_cache(maxsize=None)
def end(record, text_room, error_room):
    """Ends a stream: 8, then 5, then 1, else what is held is written."""
    if not is_open(record):
        return Call(STREAM_CLOSED, record)
    if text_room < LEAST_TEXT_ROOM or error_room < LEAST_ERROR_ROOM:
        return Call(ROOMS_TOO_SMALL, record)
    reading = Reading(record)
    if reading.part:
        return Call(ILL_FORMED, reading.closed(), place=reading.taken - len(reading.part))
    reading.write_held()
    return Call(ENDED, reading.closed(), 0, reading.text, reading.errors)


# ------------------------------------------------------------------------------------------------------------ the model's own test

def held_ending(taken):
    """How the bytes taken end: their incomplete character, and before it what the held rule holds."""
    part = next((taken[-length:] for length in (1, 2, 3) if begins_character(taken[-length:]) and not is_whole(taken[-length:])), b"")
    whole = taken[:len(taken) - len(part)]
    last = whole[max(whole.rfind(b"&"), 0):]
    return (last if is_held(last) else b""), part, last


@lru_cache(maxsize=None)
def released(taken, context):
    """The text and errors of the bytes taken without their held ending, and the record that this ending gives."""
    held, part, last = held_ending(taken)
    covered = taken[:len(taken) - len(held) - len(part)]
    state, base, value, store = state_of_held(held)
    place = len(covered) if held else 0
    if covered.endswith(b"\r") and not held:
        state = AFTER_CR
    if is_bogus_name(last):
        state, place = BOGUS_NAME, len(covered) - len(last)
    record = Stream(context, state, base, value, place, store.ljust(STORE_BYTES, b"\0"), len(store),
                    part.ljust(PART_BYTES, b"\0"), len(part), len(taken))
    return *read_pieces(covered, context), record


@lru_cache(maxsize=None)
def closing(source, context):
    """The closing answer and place, the bytes taken by then, and all text and errors."""
    answer, stop = first_stop(source, context)
    covered = source[:stop]
    if answer not in (ILL_FORMED, NUL):
        return answer, stop if answer == LEFT else 0, stop, *read_pieces(covered, context)
    faulty = stop
    while faulty < len(source) and begins_character(source[stop:faulty + 1]):
        faulty += 1
    text, errors, _ = released(covered, context)
    return answer, stop, faulty if answer == ILL_FORMED else stop, text, errors


def check_calls(context, source, calls):
    """The calls of one run, from a new stream to after its closing answer, agree with the source as a whole."""
    text, errors, taken, closed = b"", (), 0, False
    for call in calls:
        if closed:
            assert call == Call(STREAM_CLOSED, closed), (context, source, call)
            continue
        text, errors, taken = text + call.text, errors + call.errors, taken + call.taken
        if call.record.state == CLOSED:
            closed = call.record
            assert closed == Stream(context, CLOSED, taken=taken)
            assert (call.answer, call.place, taken, text, errors) == closing(source, context), (context, source, call)
        else:
            assert call.answer in (ENDED, ROOM_USED_UP) and call.place == 0, (context, source, call)
            assert (text, errors, call.record) == released(source[:taken], context), (context, source, call)
    assert closed, (context, source)


# ------------------------------------------------------------------------------------------------------------------------- runs and sums

def feed_chunk(record, chunk, rooms):
    """The calls for one chunk, whose bytes are handed in again after 6."""
    calls = [feed(record, chunk, *rooms)]
    while calls[-1].answer == ROOM_USED_UP:
        chunk = chunk[calls[-1].taken:]
        calls.append(feed(calls[-1].record, chunk, *rooms))
    return calls


def run(context, chunks, rooms):
    """The calls from a new stream over all chunks to its end, checked."""
    calls, record = [], Stream(context)
    for chunk in chunks:
        calls += feed_chunk(record, chunk, rooms)
        record = calls[-1].record
    calls.append(end(record, *rooms))
    check_calls(context, b"".join(chunks), calls)
    return calls


FACTOR = 65_599


def mixed(start, values):
    """A sum that depends on each number and on their order."""
    for value in values:
        start = (start * FACTOR + value) % 2**32
    return start


@lru_cache(maxsize=None)
def record_sum(record):
    """The sum of all fields of a record."""
    numbers = (ord(record.context), ord(record.state), record.base, record.value, record.place, record.count, record.part_count, record.taken)
    store, part = record.store.rstrip(b"\0"), record.part.rstrip(b"\0")
    return mixed(0, (*numbers, len(store), *store, len(part), *part))


@lru_cache(maxsize=None)
def call_sum(call):
    """The sum of all that a call hands back and wrote."""
    counts = (call.answer, call.taken, len(call.text), len(call.errors), call.place)
    return mixed(record_sum(call.record), (*counts, *call.text, *(number for error in call.errors for number in error)))


def run_sum(calls):
    """The sum of the calls of one run."""
    return mixed(0, map(call_sum, calls))


# ------------------------------------------------------------------------------------------------------------------- records and lines

LEAST_ROOMS = LEAST_TEXT_ROOM, LEAST_ERROR_ROOM

# The largest rooms here.
MOST_TEXT_ROOM, MOST_ERROR_ROOM = 70_000, 20_000


def call_field(call):
    """A call as a line shows it."""
    fields = f"{call.answer} {call.taken} {len(call.text)} {len(call.errors)} {call.place} {written(call.text)}"
    return f"{fields} {error_list(call.errors)}".rstrip()


def trimmed(some):
    """Bytes in hex without the zeros at their end."""
    return some.rstrip(b"\0").hex() or "-"


def stream_field(record):
    """A record as a line shows it."""
    state = f"N{record.base}={record.value}" if record.state == NUMERIC else record.state
    store, part = f"{trimmed(record.store)}/{record.count}", f"{trimmed(record.part)}/{record.part_count}"
    return f"{record.context} {state}@{record.place} {store} {part} {record.taken}"


class Source(NamedTuple):
    """A source that is cut at every place, and in the given lengths with the given rooms."""
    context: str
    source: bytes
    lengths: tuple
    rooms: tuple
    with_cuts: bool = True

    @property
    def kind(self):
        """The letter of the record."""
        return self.context if self.with_cuts else self.context.lower()

    def packed(self):
        """The record in stdin."""
        return packed(self.kind, *self.rooms, 0, self.source, struct.pack(f"<{len(self.lengths)}H", *self.lengths))

    def cuts(self):
        """The runs in two chunks and the run byte by byte."""
        source, single = self.source, [self.source[at:at + 1] for at in range(len(self.source))]
        for cut in range(len(source) + 1):
            yield run(self.context, (source[:cut], source[cut:]), LEAST_ROOMS)
        yield run(self.context, single, LEAST_ROOMS)

    def given(self):
        """The run in the given lengths."""
        starts = [sum(self.lengths[:index]) for index in range(len(self.lengths) + 1)]
        assert starts[-1] == len(self.source)
        return run(self.context, [self.source[start:stop] for start, stop in zip(starts, starts[1:])], self.rooms)

    def replayed(self):
        """The line in stdout, and the calls behind it."""
        runs, given = list(self.cuts()) if self.with_cuts else [], self.given()
        sums = [run_sum(calls) for calls in runs]
        start = f" {''.join(f'{total >> 16:04x}' for total in sums)} {sum(map(len, runs))} {mixed(0, sums)}" if self.with_cuts else ""
        line = " | ".join((self.kind + start, *map(call_field, given), stream_field(given[-1].record)))
        return line, [call for calls in (*runs, given) for call in calls]


class Forged(NamedTuple):
    """A record that is ended, and fed a chunk and then ended."""
    record: Stream
    head: bytes
    rooms: tuple = LEAST_ROOMS
    fill: int = 0

    def packed(self):
        """The record in stdin."""
        record = self.record
        numbers = record.base, record.value, record.place, record.count, record.part_count, record.taken
        extra = struct.pack("<cc6I", record.context.encode(), record.state.encode(), *numbers) + record.store + record.part
        return packed("R", *self.rooms, self.fill, self.head, extra)

    def replayed(self):
        """The line in stdout, and the calls behind it."""
        fed = feed(self.record, self.head + b"x" * self.fill, *self.rooms)
        calls = [end(self.record, *self.rooms), fed, end(fed.record, *self.rooms)]
        return " | ".join(("R", *(f"{call_field(call)} {stream_field(call.record)}" for call in calls))), calls


# ---------------------------------------------------------------------------------------------- cases: sources that are cut everywhere

# What stands before a cut, so that each state is met there, and what may come after it.
BEFORE = [
    b"", b"\r", b"&", b"&#", b"&#x", b"&#X", b"&#6", b"&#x4", b"&#128", b"&n", b"&not", b"&noti", b"&notin", b"&amp", b"&amp;", b"&apos",
    b"&zz", b"&1", b"&ac", b"&abc;", b"&#13;",
]
AFTER = [
    b"", b";", b"x", b"i", b"=", b"&", b"#", b"\n", b"\r", b"\0", b"<", b'"', b"\xFF", b"\xE2", b"\xE2\x82", b"\xE2<", b'\xE2"', b"\xE2\0", b"\xE2&",
    b"\xE2\xE2\x82\xAC", b"\xF0\x9F\x98", b"5", b"f", b"\x01", *(character.encode() for character in "é€😀\uFDD0\U0010FFFF"),
]


def state_sources():
    """Each state before each kind of character, with something to show what the state was afterwards."""
    draw = random.Random(3)
    for before, after in product(BEFORE, AFTER):
        yield before + after + draw.choice((b"", b";", b"z", b"\n", b"a;", b"&"))


def named_sources():
    """Each name alone or with something after it, and the same cut short."""
    draw = random.Random(4)
    for name in NAMES:
        yield b"&" + name + draw.choice((b"", b"", b"=", b"x", b";", b" ", b"&", b"<", b'"', b"\0", b"\xC2\xA0"))
        yield b"&" + name[:-1] + draw.choice((b"", b"9;", b"=", b"\n", b"\xE2", b"\xFF"))


def numbered_sources():
    """The boundaries of the number rules in each spelling, the C1 numbers in one, and runs of digits that wrap narrow numbers."""
    draw = random.Random(5)
    boundaries = (0x00, 0x01, 0x08, 0x0B, 0x0D, 0x1F, 0x7F, 0x80, 0x9F, 0xA0, 0xD7FF, 0xD800, 0xDFFF, 0xE000, 0xFDCF, 0xFDD0, 0xFDEF, 0xFDF0, 0xFFFD,
                  0xFFFE, 0xFFFF, 0x10000, 0x1FFFE, 0x10FFFD, 0x10FFFE, 0x10FFFF, 0x110000, 0x110001, 2**32 - 1, 2**32, 2**32 + 65, 2**64 + 65)
    for number, spelling in product(boundaries, ("{}", "x{:x}", "X{:X}")):
        yield f"&#{spelling.format(number)}{draw.choice((';', ';x', '', 'g', ' ', '&', '<'))}".encode()
    yield from (f"&#{draw.choice(('{}', 'x{:x}')).format(number)}{draw.choice((';', ''))}".encode() for number in C1_RANGE)
    for digits in ("0" * 30 + "65", "9" * 40, "x" + "0" * 30 + "41", "X" + "F" * 40, "1114112", "1114111", "x0110000", "11141110", "x1100000"):
        yield from (f"&#{digits}{after}".encode() for after in (";", "", ";z", "g", "\r\n"))


def character_sources():
    """Characters of each length, with and without error 5, alone, in a row, and where a reference is held."""
    for value in (0x7F, 0x80, 0x9F, 0xA0, 0x7FF, 0x800, 0xD7FF, 0xE000, 0xFDD0, 0xFDEF, 0xFEFF, 0xFFFD, 0xFFFE, 0xFFFF, 0x10000, 0x1F600, 0x10FFFE):
        character = chr(value).encode()
        yield from (character, character * 2, b"a" + character + b"b")
        yield from (b"&not" + character, b"&#1" + character, b"&" + character + b";", b"\r" + character)
        yield from (character[:length] + after for length in range(1, len(character)) for after in (b"", b"a", b"\xC2\xA0", b"\n"))


def drawn_sources(count, seed):
    """Short sources that are rich in references, characters of more bytes, and reasons to stop near their end."""
    draw = random.Random(seed)
    pools = (LETTERS, BEGINNINGS, BEFORE)
    stops = [b"", b"", b"<", b'"', b"\0", b"\xFF", b"\xE2\x82", b"\xF0\x9F"]
    for _ in range(count):
        yield b"".join(draw.choice(draw.choice(pools)) for _ in range(draw.randint(1, 6))) + draw.choice(stops) + draw.choice(stops)


def chosen_sources():
    """The paper's own sources, and what may follow a `&`, one kind after another."""
    yield from (source for _, source, _, _ in MARKED_SOURCES + ONLY_RUN)
    yield from (source for source in ampersand_sources() if len(source) <= 70)


def other_sources():
    """All other sources that are cut at every place."""
    yield from (bytes([byte]) for byte in range(256))
    for group in (line_break_sources, nul_sources, faulty_sources, character_sources, named_sources, numbered_sources, state_sources):
        yield from group()
    yield from drawn_sources(160, seed=6)
    yield from (b"plain text and &notit; and more of it" + after for after in (b"", b"\r\n", b"\xE2", b"\0", b"<", b"&notit", b"\x01\x02\x03"))


def drawn_lengths(draw, length, longest):
    """Lengths of chunks, some of them 0, that make this length together."""
    lengths = []
    while sum(lengths) < length or not lengths:
        lengths.append(min(draw.randint(0, longest), length - sum(lengths)))
    return tuple(lengths)


def cut_records():
    """Each source with lengths and rooms drawn for it; of the others, those that read the same in both contexts come in one of them."""
    draw = random.Random(7)
    chosen = list(chosen_sources())
    for source in dict.fromkeys((*chosen, *other_sources())):
        both = source in chosen or closing(source, TEXT) != closing(source, ATTRIBUTE)
        for context in CONTEXTS if both else (draw.choice(CONTEXTS),):
            rooms = draw.choice((LEAST_TEXT_ROOM, draw.randint(64, 80), 200)), draw.choice((LEAST_ERROR_ROOM, draw.randint(8, 14), 40))
            yield Source(context, source, drawn_lengths(draw, len(source), 5), rooms)


def long_records():
    """Long sources in chunks and rooms of many lengths, whose text and errors use the rooms up again and again."""
    draw = random.Random(8)
    references = b"&amp;&#128&notit;\r\n&#x41;\x01&abc; &#; &zz;&lt=\xE2\x82\xAC&apos\xF0\x9F\x98\x80&#55555555;"
    sources = (blocks(2_000), references * 20, b"\x01" * 300, b"plain " * 200, b"&#;" * 100, "😀".encode() * 100, b"&" * 300, BLOCK * 5 + b"&notin")
    for source, context in product(sources, CONTEXTS):
        for longest, rooms in ((9, LEAST_ROOMS), (200, (draw.randint(64, 300), draw.randint(8, 60))), (700, (4_000, draw.randint(8, 20)))):
            some = source[draw.randint(0, 9):1 + draw.randint(len(source) // 9, len(source)) // (4 if longest == 9 else 1)]
            yield Source(context, some, drawn_lengths(draw, len(some), longest), rooms, with_cuts=False)


PLAIN = b"plain text of more than one block, " * 8


def run_records():
    """Runs of plain text: between two things of any sort, around every byte of ASCII, and in rooms that end inside them."""
    draw = random.Random(10)

    def source(some, most_text, longest):
        rooms = draw.randint(64, most_text), draw.randint(8, 14)
        return Source(draw.choice(CONTEXTS), some, drawn_lengths(draw, len(some), draw.choice((len(some), longest))), rooms, with_cuts=False)

    for length in range(132):
        yield source(draw.choice(BEFORE) + PLAIN[:length] + draw.choice(AFTER), 260, 90)
    for byte in range(128):
        yield source(PLAIN[:draw.randint(0, 66)] + bytes([byte]) + PLAIN[:draw.randint(0, 66)], 260, 70)
    for room in range(64, 164):
        some = PLAIN[:draw.randint(room - 64, 140)]
        yield Source(TEXT, some, (len(some),), (room, LEAST_ERROR_ROOM), with_cuts=False)


# -------------------------------------------------------------------------------------------------------- cases: records of every sort

def forged(context, state, store=b"", part=b"", taken=100, place=90, base=0, value=0, garbage=b""):
    """A record with these bytes and their counts, and garbage past the counts."""
    return Stream(context, state, base, value, place, (store + garbage * STORE_BYTES)[:STORE_BYTES].ljust(STORE_BYTES, b"\0"), len(store),
                  (part + garbage * PART_BYTES)[:PART_BYTES].ljust(PART_BYTES, b"\0"), len(part), taken)


STORES = [
    b"", b"&", b"&#", b"&#x", b"&#X", b"&#1", b"&#x1", b"&a", b"&amp", b"&amp;", b"&not", b"&not;", b"&noti", b"&notin", b"&notin;", b"&notit",
    b"&zz", b"&centerdot", b"&centerdot;", b"&centerdots", b"#", b"x", b"a", b"amp", b"&&", b"& ", b"&\0", b"\0", b"&\xE2", b"\r", b"&#x" + b"0" * 29,
]
ENUM = [(state, 0, 0) for state in STATES if state != NUMERIC] + [(NUMERIC, 10, 65), (NUMERIC, 16, 0x110000)]
GARBAGE = b"\xAA&m\0"


def form_records():
    """Each state with each store, right and wrong, with nothing and with garbage past it."""
    draw = random.Random(9)
    for (state, base, value), store in product(ENUM, STORES):
        yield Forged(forged(draw.choice(CONTEXTS), state, store, base=base, value=value, garbage=draw.choice((b"", GARBAGE))), b";x")


OPEN = [(state, b"", 0, 0) for state in (DATA, AFTER_CR, BOGUS_NAME)]
OPEN += [(BEGIN, b"&", 0, 0), (OCTOTHORPE, b"&#", 0, 0), (HEX_BEGIN, b"&#x", 0, 0), (HEX_BEGIN, b"&#X", 0, 0)]
OPEN += [(NUMERIC, b"&#", 10, 12), (NUMERIC, b"&#X", 16, 0x1F60)]
OPEN += [(NAMED, b"&" + name, 0, 0) for name in (b"n", b"not", b"noti", b"notin", b"amp", b"centerdo", b"apos")]
CHUNKS = [b"", b";", b"x", b"=", b"5", b"\n", b"<", b'"', b"\0", b"\xFF", b"\xE2", "€".encode(), b"&", b";;a;\r"]


def open_records():
    """Each state, its record open, before each kind of chunk, with garbage past what is held."""
    for (state, store, base, value), chunk, context in product(OPEN, CHUNKS, CONTEXTS):
        yield Forged(forged(context, state, store, base=base, value=value, garbage=GARBAGE), chunk)


PARTS = [bytes.fromhex(digits) for digits in (
    "00", "26", "3C", "61", "7F", "80", "BF", "C0", "C1", "C2", "DF", "E0", "E1", "EC", "ED", "EE", "EF", "F0", "F1", "F3", "F4", "F5", "FF",
    "6161", "C280", "C241", "E080", "E09F", "E0A0", "E0BF", "E180", "E1C0", "E282", "E241", "ED80", "ED9F", "EDA0", "EE80", "EFBF", "F080", "F08F",
    "F090", "F0BF", "F180", "F3BF", "F480", "F48F", "F490", "F580", "F0C0", "26E2", "E282AC", "E28226", "F09080", "F09F98", "F09F41", "F0907F",
    "F08F80", "F48FBF", "F49080", "F1C080", "EDA080", "61E282",
)]


def part_records():
    """Incomplete characters, and bytes that are none, alone and beside held bytes."""
    for part, (state, store, base, value) in product(PARTS, ((DATA, b"", 0, 0), (NAMED, b"&not", 0, 0), (NUMERIC, b"&#", 10, 128))):
        for chunk in (b"\x80", b"\x9F\xBF\x80;", b"&") if state == DATA else (b"\xA0\x80\x80",):
            yield Forged(forged(TEXT, state, store, part, base=base, value=value, garbage=GARBAGE if state == DATA else b""), chunk)


def number_records():
    """Bases that are none, and values up to and past the one where a number stops."""
    for base, store in product((0, 1, 2, 8, 9, 10, 11, 15, 16, 17, 26, 266, 2**31 + 10, 2**32 - 1), (b"&#", b"&#x", b"&#X")):
        yield Forged(forged(TEXT, NUMERIC, store, base=base, value=65), b"1;")
    values = (0, 1, 0x0D, 0x80, 0xD800, 0x11000, 0x1B207, 0x10FFFF, 0x110000, 0x110001, 0x19999999, 0x1999999A, 0x10000000, 2**31, 2**32 - 1)
    for value, (base, store), chunk in product(values, ((10, b"&#"), (16, b"&#x")), (b"", b";", b"0", b"5;", b"f;")):
        yield Forged(forged(ATTRIBUTE, NUMERIC, store, base=base, value=value), chunk)


def limit_records():
    """Counts at and over their limits, and taken counts, places and held bytes around each other."""
    full = forged(TEXT, DATA, garbage=b"&")
    for state, count in product((DATA, AFTER_CR, BEGIN, NAMED, BOGUS_NAME), (0, 1, 31, 32, 33, 34, 255, 256, 2**31, 2**32 - 1)):
        yield Forged(full._replace(state=state, count=count), b"a")
    for part, part_count in product((b"\xF0\x9F\x98", b"\xE2\x82\0", b"\xC2\0\0", b"\0\0\0"), (0, 1, 2, 3, 4, 5, 255, 256, 2**32 - 1)):
        yield Forged(full._replace(part=part, part_count=part_count), b"\x80")
    held = ((DATA, b"", b""), (BEGIN, b"&", b""), (NAMED, b"&not", b""), (DATA, b"", b"\xE2\x82"), (NAMED, b"&not", b"\xE2\x82"),
            (AFTER_CR, b"", b""), (BOGUS_NAME, b"", b""), (BOGUS_NAME, b"", b"\xF0\x9F\x98"))
    for state, store, part in held:
        for taken, place in product((0, 1, 2, 3, 4, 5, 6, MOST_TAKEN), (0, 1, 5)):
            yield Forged(forged(TEXT, state, store, part, taken, place), b"\xACx;" if part else b"x;")
        for taken, place in product((MOST_TAKEN - 1, MOST_TAKEN, MOST_TAKEN + 1, 2**32 - 1), (MOST_TAKEN, MOST_TAKEN + 1, 2**32 - 1)):
            yield Forged(forged(ATTRIBUTE, state, store, part, taken, place), b"")
        yield from (Forged(forged(ATTRIBUTE, state, store, part, MOST_TAKEN - before, 9), b"\xAC") for before in (0, 1))
    for taken, stop, context in product((65_530, 16_000_000, MOST_TAKEN - 40), (b"<", b'"', b"\0", b"\xE2", b"\xE2("), CONTEXTS):
        yield Forged(Stream(context, taken=taken), b"\x01&not &abc;&#;&zz;\xE2\x82\xAC&#128" + stop, (200, 40))


def refusal_records():
    """Answers 8, 3, 4 and 5, alone and together, and just short of each."""
    streams = (Stream(TEXT), Stream(ATTRIBUTE, CLOSED), forged(TEXT, CLOSED, b"&not", b"\xE2", garbage=GARBAGE))
    rooms = (LEAST_ROOMS, (63, 8), (64, 7), (64, 6), (0, 8), (64, 0), (0, 0), (65, 9), (MOST_TEXT_ROOM, MOST_ERROR_ROOM))
    for stream, length in product(streams, (0, 1, 65_535, 65_536, 65_537)):
        for taken in (0, MOST_TAKEN - 65_536, MOST_TAKEN - 65_535, MOST_TAKEN - 1, MOST_TAKEN, MOST_TAKEN + 1):
            yield Forged(stream._replace(taken=taken), b"", LEAST_ROOMS, length)
    for stream, length, some, taken in product(streams[:2], (1, 65_537), rooms[1:], (10, MOST_TAKEN)):
        yield Forged(stream._replace(taken=taken), b"", some, length)
    for head, some in product((b"&notit;\r\n&#128\xE2\x82\xAC<", b"\x01" * 100, b"&abc;\xFF", b"&not\0", b""), rooms):
        yield Forged(Stream(TEXT, taken=3), head, some, 65_536 - len(head))


# ------------------------------------------------------------------------------------------------------------------------- the files

def all_records():
    """Every case, in order; some come twice."""
    yield from cut_records()
    yield from long_records()
    yield from run_records()
    for group in (form_records, open_records, part_records, number_records, limit_records, refusal_records):
        yield from group()


def check_covered(calls):
    """Every answer of the table that a stream can give is among the calls, and every state after one of them, alone and with part of a character."""
    assert {call.answer for call in calls} == {0, 1, 2, 3, 4, 5, 6, 7, 8}
    assert {call.record.state for call in calls} == set(STATES)
    assert {(call.record.state, call.record.part_count) for call in calls} >= set(product(STATES.replace(CLOSED, ""), (0, 1, 2, 3)))


def show(record):
    """Prints what a line stands for."""
    print(record)
    for call in record.replayed()[1]:
        print(call_field(call), "|", stream_field(call.record))


def write(folder, records):
    """Writes stdin and stdout."""
    lines, calls = [], []
    for record in records:
        line, made = record.replayed()
        lines.append(line)
        calls += made
    check_covered(calls)
    sizes = write_part(folder, b"S", (record.packed() for record in records), lines)
    print(f"{len(records)} records, {len(calls)} calls, {sizes}")


def main():
    """Check the model, then write stdin and stdout, or show a line."""
    if len(sys.argv) not in (2, 3):
        sys.exit("usage: python3 tests/replay_stream.py FOLDER [NUMBER]")
    check_names()
    check_examples()
    records = list(dict.fromkeys(all_records()))
    if len(sys.argv) == 3:
        show(records[int(sys.argv[2]) - 1])
    else:
        write(Path(sys.argv[1]), records)


if __name__ == "__main__":
    main()
