"""Debian's python3-html5lib as a witness: reads frames of sources and writes frames of answers, as rust/witness/src/main.rs tells.

It gives text alone: html5lib's errors are of an older draft of the standard, with other names and other places.
"""
import struct
import sys

from html5lib._tokenizer import HTMLTokenizer
from html5lib.constants import tokenTypes

TEXT = {tokenTypes["Characters"], tokenTypes["SpaceCharacters"]}
START_TAG = tokenTypes["StartTag"]


def decode_text(source):
    """Text ends before `<`, where a tag follows."""
    covered, end, _ = source.partition("<")
    return "".join(token["data"] for token in HTMLTokenizer(covered + ("<x>" if end else "")) if token["type"] in TEXT)


def decode_attribute(source):
    """An attribute's value in double quotes ends before `"`."""
    covered = source.partition('"')[0]
    tag, = (token for token in HTMLTokenizer(f'<x a="{covered}">') if token["type"] == START_TAG)
    return tag["data"]["a"]


def answers(frame):
    """The answers to a frame."""
    at = 0
    while at < len(frame):
        end = at + 5 + struct.unpack_from("<I", frame, at + 1)[0]
        decode = decode_text if frame[at:at + 1] == b"T" else decode_attribute
        try:
            text = decode(frame[at + 5:end].decode()).encode(errors="surrogatepass")
        except Exception as error:  # any failure is an answer, and is compared
            text = f"failed: {error!r}".encode()
        yield struct.pack("<I", len(text)) + text + bytes(4)
        at = end


while head := sys.stdin.buffer.read(4):
    given = b"".join(answers(sys.stdin.buffer.read(*struct.unpack("<I", head))))
    sys.stdout.buffer.write(struct.pack("<I", len(given)) + given)
    sys.stdout.buffer.flush()
