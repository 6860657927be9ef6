"""The sides of a comparison. Each is asked for a batch of sources and gives its answers as bytes, all in the same form:

    for each source, in text and then in an attribute (or escaped in text and then in attribute mode): the text's length in four bytes,
    little-endian, the text, how many errors there are in four bytes, and a byte for each error: document 01's code. (A witness that failed on
    a source gives what it said as the text.)

So two sides agree on a batch exactly when these bytes are equal.
"""
import os
import random
import shutil
import struct
import subprocess
import sys
from functools import cached_property
from pathlib import Path

HERE = Path(__file__).resolve().parent
ROOT = HERE.parent
BUILT = HERE / "target"
DEBIAN_PYTHON = "/usr/bin/python3"

DECODE, ESCAPE = b"TA", b"ta"


def stop(message):
    """End with one line that says what to type."""
    sys.exit(message)


def number(value):
    """Four bytes, the lowest first."""
    return struct.pack("<I", value)


def answer(text, codes):
    """One answer."""
    codes = bytes(codes)
    return number(len(text)) + text + number(len(codes)) + codes


def split(answers):
    """Answers as pairs of text and codes."""
    pairs, at = [], 0
    while at < len(answers):
        length, = struct.unpack_from("<I", answers, at)
        text = answers[at + 4:at + 4 + length]
        at += 4 + length
        count, = struct.unpack_from("<I", answers, at)
        pairs.append((text, list(answers[at + 4:at + 4 + count])))
        at += 4 + count
    return pairs


def framed(kinds, sources):
    """Records, a kind, a length and a source each, with the length of them all before."""
    records = b"".join(bytes([kind]) + number(len(source)) + source for source in sources for kind in kinds)
    return number(len(records)) + records


class Batch:
    """Sources, in UTF-8, and the frames that ask for them."""

    def __init__(self, sources):
        self.sources = sources

    @cached_property
    def decode(self):
        """The frame that asks for both contexts."""
        return framed(DECODE, self.sources)

    @cached_property
    def escape(self):
        """The frame that asks for both modes."""
        return framed(ESCAPE, self.sources)


class Framed:
    """A process that reads a frame and writes one, again and again."""

    def __init__(self, name, command, **environment):
        self.name = name
        self.process = subprocess.Popen(command, stdin=subprocess.PIPE, stdout=subprocess.PIPE, env=os.environ | environment)

    def ask(self, frame):
        """Hand over a frame and take the answers."""
        try:
            self.process.stdin.write(frame)
            self.process.stdin.flush()
            length, = struct.unpack("<I", self.process.stdout.read(4))
            return self.process.stdout.read(length)
        except (BrokenPipeError, struct.error):
            stop(f"{self.name} stopped: what it said stands above")

    def decode(self, batch):
        """Both contexts."""
        return self.ask(batch.decode)

    def escape(self, batch):
        """Both modes."""
        return self.ask(batch.escape)

    def close(self):
        """Let the process end."""
        self.process.stdin.close()
        self.process.wait()


# ------------------------------------------------------------------------------------------------------------------------ the witnesses

def rust(way):
    """html5ever, handed a source whole or by characters."""
    program = BUILT / "witness"
    if not program.exists():
        stop("oracle/target/witness is missing: oracle/build FOLDER   (the folder of html5ever 0.40.1, or docs/src beside document 01)")
    return Framed(f"Rust, {way}", [program, way])


def parse5():
    """Debian's node-parse5: text and codes."""
    if not Path("/usr/share/nodejs/parse5").exists() or not shutil.which("node"):
        stop("a package is missing: apt-get install nodejs node-parse5")
    return Framed("parse5", ["node", HERE / "parse5.js"], NODE_PATH="/usr/share/nodejs")


def html5lib():
    """Debian's python3-html5lib: text, and no codes."""
    if not Path("/usr/lib/python3/dist-packages/html5lib").exists():
        stop("a package is missing: apt-get install python3-html5lib")
    return Framed("html5lib", [DEBIAN_PYTHON, HERE / "html5lib_side.py"])


# ----------------------------------------------------------------------------------------------------------------------------- our sides

def built(name):
    """A program of this repository, proved and built anew where it has changed."""
    if not shutil.which("rt"):
        stop("rt is missing: put the Rattle kit's bin folder on the path")
    crate = ROOT / "crates" / name
    said = subprocess.run(["rt", "run"], cwd=crate, stdin=subprocess.DEVNULL, capture_output=True, text=True)
    if said.returncode:
        stop(f"rt run in crates/{name} failed:\n{said.stdout[-2000:]}{said.stderr[-2000:]}")
    return crate / "out" / name


def exports():
    """Ours, through the C exports, which run-c proves and builds where they have changed."""
    return Framed("ours, exports", [ROOT / "run-c", HERE / "ours.c"])


# The longest list that the program replay takes, and its largest rooms.
MOST_LIST_BYTES, MOST_TEXT_ROOM, MOST_ERROR_ROOM = 1_000_000, 400_000, 140_000


def listed(letter, records):
    """A list as the program replay takes it: letter, length, and the records."""
    assert len(records) <= MOST_LIST_BYTES, "the program reads no longer list"
    return letter + number(len(records)) + records


def record(kind, rooms, source, before=b""):
    """A record of a list: its head, what stands before the source, and the source."""
    return struct.pack("<BIIIHH", kind, *rooms, 0, len(source), len(before)) + before + source


class Lines:
    """The program replay, which reads lists of records and writes a line for each record; a process for each list."""

    letter = None

    def __init__(self):
        self.command = [built("replay")]

    def run(self, records):
        """The lines for records."""
        lines = []
        some, size = [], 0
        for packed in [*records, None]:
            if packed is None or size + len(packed) > MOST_LIST_BYTES:
                said = subprocess.run(self.command, input=listed(self.letter, b"".join(some)), stdout=subprocess.PIPE, check=True).stdout
                lines += said.split(b"\n")[:-1]
                some, size = [], 0
            if packed is not None:
                some.append(packed)
                size += len(packed)
        return lines

    def close(self):
        """Nothing is left to end."""


class Whole(Lines):
    """Ours, whole: decode_whole and escape, as the Rust's sample is replayed."""

    name = "ours, whole"
    letter = b"R"

    @staticmethod
    def records(kinds, sources):
        """Records that ask for sources, with rooms that are never short."""
        return [record(kind, (MOST_TEXT_ROOM, MOST_ERROR_ROOM), source) for source in sources for kind in kinds]

    def answers(self, kinds, sources):
        """Text and codes of every line; a refusal differs from anything."""
        out = []
        for line in self.run(self.records(kinds, sources)):
            text, *codes = line.split(b" ")
            if text == b"refused":
                out.append(answer(b"?refused", []))
            else:
                out.append(answer(b"" if text == b"-" else bytes.fromhex(text.decode()), map(int, codes)))
        return b"".join(out)

    def decode(self, batch):
        """Both contexts."""
        return self.answers(DECODE, batch.sources)

    def escape(self, batch):
        """Both modes."""
        return self.answers(ESCAPE, batch.sources)


# The longest chunk of a source is one of these: bytes singly, a few, and all at once. Rooms are so much larger than the least: with nothing
# more, a call writes once. All grow with the source, so that a long one takes no more than some dozen calls.
LONGEST = (1, 4, 16, 300)
MORE_TEXT = (0, 1, 5, 20, 100)
MORE_ERRORS = (0, 1, 2, 5, 30)


class Stream(Lines):
    """Ours, in chunks: the stream, cut at random, with small rooms."""

    name = "ours, in chunks"
    letter = b"S"
    tries = 8

    def __init__(self, seed):
        super().__init__()
        self.draw = random.Random(seed)
        self.cuts = []

    def cut(self, kind, source):
        """A record of a source, with lengths of chunks and rooms."""
        draw = self.draw.random
        longest = LONGEST[int(draw() * len(LONGEST))] + len(source) // 6
        left, lengths = len(source), []
        while left:
            lengths.append(min(left, int(draw() * longest) + 1))
            left -= lengths[-1]
        if draw() < 0.1:
            lengths.insert(int(draw() * (len(lengths) + 1)), 0)
        rooms = 64 + MORE_TEXT[int(draw() * len(MORE_TEXT))] + len(source) // 6, 8 + MORE_ERRORS[int(draw() * len(MORE_ERRORS))] + len(source) // 20
        self.cuts.append((lengths, rooms))
        return record(kind, rooms, source, struct.pack(f"<{len(lengths)}H", *lengths))

    def explain(self, index):
        """How a source of the last batch was handed over."""
        lengths, (text, errors) = self.cuts[index]
        return f"chunks of {' '.join(map(str, lengths))} bytes, room for {text} bytes and {errors} numbers"

    def decode(self, batch):
        """Both contexts: text and codes of all calls, joined; a call with an answer that a readable source never has differs from anything."""
        self.cuts = []
        records = [self.cut(kind, source) for source in batch.sources for kind in b"ta"]
        out = []
        for line in self.run(records):
            calls = [call.split(b" ") for call in line.split(b" | ")[1:-1]]
            if not {call[0] for call in calls} <= {b"0", b"6", b"7", b"8"} or line.endswith(b"TOUCHED") or any(b":" in call[5] for call in calls):
                out.append(answer(b"?" + line, []))
                continue
            text = bytes.fromhex(b"".join(call[5] for call in calls if call[5] != b"-").decode())
            out.append(answer(text, [int(word[:1]) for call in calls for word in call[6:]]))
        return b"".join(out)
