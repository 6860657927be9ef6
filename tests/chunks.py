"""Makes stdin and stdout of crates/chunks: a source, and what the example must write for it.

    python3 tests/chunks.py

The calls are those of the model in tests/replay_stream.py, which was written from document 01 without sight of the decoder. This script has the
example's sizes and the form of its lines, and sees that the source shows what it is for. Two runs write the same files.
"""
from pathlib import Path

from replay_stream import ENDED, ROOM_USED_UP, TEXT, Stream, end, feed

CRATE = Path(__file__).resolve().parent.parent / "crates" / "chunks"
CHUNK_BYTES, ROOMS = 24, (80, 16)
SOURCE = "Fish &amp; chips at café, table 7: &pound;12 &amp; tea &pound3 &copy".encode()


def calls(source):
    """The calls of the example, in order: a chunk, again what an answer 6 leaves of it, and the end where no answer came before."""
    stream = Stream(TEXT)
    for at in range(0, len(source), CHUNK_BYTES):
        chunk, answer = source[at:at + CHUNK_BYTES], ROOM_USED_UP
        while answer == ROOM_USED_UP:
            call = feed(stream, chunk, *ROOMS)
            yield call
            stream, chunk, answer = call.record, chunk[call.taken:], call.answer
        if answer != ENDED:
            return
    yield end(stream, *ROOMS)


def line(call):
    """A call's line: ANSWER TAKEN [TEXT] CODE@PLACE .."""
    errors = "".join(f" {code}@{place}" for code, place in call.errors)
    return f"{call.answer} {call.taken} [".encode() + call.text + f"]{errors}\n".encode()


def main():
    """Write both files."""
    made = list(calls(SOURCE))
    assert any(call.answer == ROOM_USED_UP for call in made), "no answer 6"
    assert any(call.record.part_count for call in made[:-1]), "no character is cut"
    assert any(call.record.count for call in made[:-2]), "no reference is cut"
    assert made[-1].answer == ENDED and made[-1].text, "nothing is held at the end"
    (CRATE / "stdin").write_bytes(SOURCE)
    (CRATE / "stdout").write_bytes(b"".join(map(line, made)) + f"answer {made[-1].answer}, place {made[-1].place}\n".encode())


if __name__ == "__main__":
    main()
