"""A second reading of the bench program: what it must write, written down for a replay.

Made from document 01, 'The bench program', and its settled reading that any start but `T` LF and `A` LF is a bad context, with the code
in sight. What is read of a source is that of replay_whole.py, which was made without. Only the standard library is needed.

    python3 tests/replay_bench.py FOLDER

writes to that folder stdin, a list of inputs to be replayed, and stdout, what is written for them. They are the third part of those of crates/replay,
where the parts stand one after the other; tests/replay does all of it.

    list     the letter B, how many bytes the records have (4 bytes, little-endian), and the records
    record   0, text room, error room, 0, n, 0: 1 + 4 + 4 + 4 + 2 + 2 bytes, numbers little-endian; then n bytes, the input; the rooms are those
             that the bench program has, and the fields that are 0 have no use here
    output   a line with the length of the report, and the report

    python3 tests/replay_bench.py COMMAND..

runs a built bench program on every input instead, once with the whole input at hand and, for some, byte by byte through a pipe, and
compares what it writes. The command is the program, with what starts it before it where the machine needs that: a loader.
"""

import subprocess
import sys
from itertools import chain, product
from pathlib import Path

from replay_whole import (
    CONTEXTS, ILL_FORMED, LEFT, MARKED_SOURCES, NUL, ONLY_RUN, TEXT, check_examples, check_names, decode_whole, enough_room,
    faulty_sources, line_break_sources, nul_sources, packed, random_sources, write_part,
)

# --------------------------------------------------------------------------------------------------------------------------- the model

STARTS = {f"{context}\n".encode(): context for context in CONTEXTS}
MOST_SOURCE_BYTES = 4_096


def lines(*words):
    """Words as lines."""
    return "".join(f"{word}\n" for word in words).encode()


def report(data):
    """What the program writes for what stands on standard input."""
    context, source = STARTS.get(data[:2]), data[2:]
    if context is None:
        return lines("bad context")
    if len(source) > MOST_SOURCE_BYTES:
        return lines("too long")
    decoded = decode_whole(context, source, *enough_room(source))
    if decoded.answer in (ILL_FORMED, NUL):
        return lines(f"refused {decoded.answer} {decoded.place}")
    closing = f"left {decoded.place}" if decoded.answer == LEFT else f"end {len(source)}"
    return decoded.text + lines("", *(f"{code} {place}" for code, place in decoded.errors), closing)


# --------------------------------------------------------------------------------------------------------------------------- the cases

def started(sources):
    """Each source in both contexts."""
    for source, context in product(sources, CONTEXTS):
        yield f"{context}\n".encode() + source


def bad_starts():
    """Inputs that start with nothing, with less than is asked for, or with something else, also long ones."""
    yield from (b"", b"T", b"A", b"\n", b"TT\n", b"T\r\n", b"T\r", b"t\nx", b"a\nx", b" T\n", b"\0", b"\xFF\n", b"\xEF\xBB\xBFT\n", b"T \n", b"B\n")
    yield from (b"\nT\nx", b"AT\n", b"x" * 4_098, b"x" * 5_000, b"T" * 4_099)


def own_sources():
    """The marked sources, ends, and sources in which places have one to four digits."""
    yield from (source for _, source, _, _ in MARKED_SOURCES + ONLY_RUN)
    yield from (b"<", b'"', b"<\0", b'"\0', b'a"<', b"\n", b"\n\n", b"T\nx", b"end 0\n", b"2 0\nend 8")
    for before in (0, 1, 9, 10, 11, 99, 100, 101, 999, 1_000, 1_001):
        yield b"x" * before + b"&not\x01"
        yield b"x" * before + b"\0"
        yield b"x" * before + b'<"'


def long_sources():
    """Sources about as long as is allowed, those with the most errors and the longest text among them."""
    most = MOST_SOURCE_BYTES
    yield from (b"x" * (most - 1), b"x" * most, b"x" * (most + 1), b"x" * (most + 2), b"<" * (most + 1), b"\0" * (most + 1))
    yield from (b"\x01" * most, b"&#1" * (most // 3) + b"<", b"x" * (most - 1) + b"\0", b"x" * (most - 1) + b"\xC2", b"x" * (most - 1) + b"<")
    yield from ("€".encode() * (most // 3) + b'"', "é".encode() * (most // 2), b"&" * most)


def all_inputs():
    """Every input, in order, each once."""
    yield f"{TEXT}\n&notit;x".encode()
    yield from bad_starts()
    yield from started(own_sources())
    for group in (line_break_sources, nul_sources, faulty_sources):
        yield from started(group())
    yield from started(random_sources(150, seed=3))
    yield from started(long_sources())


# --------------------------------------------------------------------------------------------------------------------------- the files

# The rooms that the bench program has for a report and for the numbers of errors.
REPORT_ROOM, NUMBERS_ROOM = 32_784, 8_200


def check_report():
    """The model gives what the paper prints, and no report is longer than the program's room."""
    assert report(b"T\n&notit;x") == "¬it;x\n2 0\nend 8\n".encode()
    assert max(len(report(data)) for data in all_inputs()) <= REPORT_ROOM


def replayed(data):
    """The lines for an input: the length of the report, and its own, of which LF ends each."""
    written = report(data)
    return str(len(written)), *written.decode().split("\n")[:-1]


def write_files(folder, inputs):
    """Write stdin and stdout."""
    records = (packed("\0", REPORT_ROOM, NUMBERS_ROOM, 0, data) for data in inputs)
    sizes = write_part(folder, b"B", records, chain.from_iterable(map(replayed, inputs)))
    print(f"{len(inputs)} inputs, {sizes}")


def run_program(command, inputs):
    """Run a built program on every input; short inputs also come byte by byte."""
    pieces = 0
    for data in inputs:
        assert subprocess.run(command, input=data, stdout=subprocess.PIPE, check=True).stdout == report(data), data
        if len(data) < 40:
            with subprocess.Popen(command, stdin=subprocess.PIPE, stdout=subprocess.PIPE, bufsize=0) as process:
                for byte in data:
                    process.stdin.write(bytes([byte]))
                process.stdin.close()
                assert process.stdout.read() == report(data), data
            pieces += 1
    print(f"{len(inputs)} inputs as stated, {pieces} of them byte by byte too")


def main():
    """Check the model, then write the files or run the program."""
    if len(sys.argv) < 2:
        sys.exit("usage: python3 tests/replay_bench.py FOLDER | COMMAND..")
    check_names()
    check_examples()
    check_report()
    target = Path(sys.argv[1])
    inputs = list(dict.fromkeys(all_inputs()))
    if target.is_file():
        run_program([target.resolve(), *sys.argv[2:]], inputs)
    else:
        write_files(target, inputs)


if __name__ == "__main__":
    main()
