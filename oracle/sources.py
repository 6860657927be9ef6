"""The sources that all sides are given: UTF-8 without NUL, as strings. Each group is a generator; `groups` lists them.

The names and their beginnings come from names.py, and so from the published list.
"""
import random
from itertools import product

from names import chosen_names

NAMES = sorted(chosen_names())
BEGINNINGS = sorted({name[:end] for name in NAMES for end in range(1, len(name) + 1)})

# Symbols that meet each rule: references with and without digits, marks and `;`, names that go on and names that don't, the ends of both
# contexts, line breaks, a control character, characters of one to four bytes, and those that the escaper replaces.
SYMBOLS = [
    "&", "#", "x", ";", "=", "1", "a", "z", "&#", "&#x", "&#128", "&#xD800;", "&not", "in", "&amp", "lt;", "\r", "\n", "<", '"', ">", " ", "\x01",
    "\u00A0", "\u20AC", "\U0001F600",
]


def sequences(most=4):
    """Every sequence of up to so many symbols."""
    for count in range(most + 1):
        for symbols in product(SYMBOLS, repeat=count):
            yield "".join(symbols)


def is_scalar(value):
    """Whether a value is a character other than NUL."""
    return value != 0 and not 0xD800 <= value <= 0xDFFF


def scalar_values(step=1):
    """Every scalar value as text: one by one up to U+07FF and around the ends of other ranges, then sixteen in a source (or some of these)."""
    alone = {value + step for value in (0xD800, 0xE000, 0xFDD0, 0xFDF0, 0xFEFF, 0xFFFD, 0x10000, 0x110000) for step in range(-16, 16)}
    for value in sorted(set(range(0x800)) | alone):
        if value < 0x110000 and is_scalar(value):
            yield chr(value)
            yield "\r" + chr(value) + "&"
    for start in range(0, 0x110000, 16 * step):
        yield "".join(chr(value) for value in range(start, start + 16) if is_scalar(value) and chr(value) not in '<"&')


def forms(value):
    """A number as a reference in each base, with and without `;`: what follows one is the next one's `&`, or the end."""
    return f"&#{value};&#x{value:X};&#{value}&#X{value:x}"


def numbers(step=1):
    """All numeric references to 110010 hex, four values in a source (or some of these)."""
    for start in range(0, 0x110011, 4 * step):
        yield "".join(forms(value) for value in range(start, min(start + 4, 0x110011)))


def powers():
    """Numbers around each power of two to 2^70, and those that wrap to something harmless in 32 or 64 bits, in every form by itself."""
    near = {(1 << power) + step for power in range(71) for step in range(-3, 4)}
    wrapped = {(count << bits) + low for bits in (32, 64) for count in (1, 2, 3, 10, 255)
               for low in (0, 9, 65, 0x80, 0x9F, 0xD7FF, 0xD800, 0xFDD0, 0xFFFE, 0x10FFFF, 0x110000)}
    thousands = {10 ** power + step for power in range(22) for step in (-1, 0, 1)}
    for value in sorted(value for value in near | wrapped | thousands if value >= 0):
        for number in (f"{value}", f"x{value:x}", f"X{value:X}", f"{value:025}", f"x{value:025X}"):
            for after in ("", ";", ";;", "g", "G", "=", " ", "&", "<", '"', "\r\n", "\u0663", "\uFF11"):
                yield f"&#{number}{after}"


# Next characters of interest: every rule's own, the neighbours of letters and digits, characters of several bytes, and nothing.
NEXT = [""] + list(";=&<\">#' /09:@AZ[`az{xXin\t\n\r\x01\x7F") + ["\u0085", "\u00A0", "\u00E9", "\u0130", "\u0661", "\uFEFF", "\uFFFE", "\U0001F600"]


def names():
    """All names, and all beginnings of them, with every next character of interest, and two of these after each other."""
    for name in BEGINNINGS:
        for after in NEXT:
            yield f"&{name}{after}"
    for name in NAMES:
        for first, second in product(";=1aZ&\r<\"", ";=1aZ&\n<\""):
            yield f"&{name}{first}{second}"
    for name in NAMES:
        yield f"&{name.swapcase()}"
        yield f"&&{name}&{name}&{name};"


FRAGMENTS = [
    "&", "&", "#", "#", ";", ";", "=", "x", "X", "<", '"', ">", "'", "\r", "\n", "\r\n", " ", "\t", "\x0B", "\x0C", "\x01", "\x1F", "\x7F", "\u0080",
    "\u009F", "\u00A0", "\u00C2", "\u00E0", "\u0131", "\u07FF", "\u0800", "\u20AC", "\uD7FF", "\uFDD0", "\uFEFF", "\uFFFD", "\uFFFF", "\U00010000",
    "\U0001F600", "\U0010FFFF", "a", "b", "z", "A", "F", "G", "0", "1", "9", "8", "128", "80", "D800", "10FFFF", "110000", "&#", "&#x", "&#X", "&#0",
    "&#65", "&#x41", "&#128", "&#x9F", "&#13", "&#10;", "&#xFDD0", "&#xFFFE;", "&#55296;", "&#1114112", "&#4294967361;", "&am", "&no", "&noti",
    "&notit;", "&centerd", "&fjli", "&apo", "&sup", "&zz;", "&1;", "plain text, longer than a block of thirty-two bytes",
]


def joining(draw):
    """Up to twelve fragments, names and beginnings of names among them."""
    pieces = []
    for _ in range(draw.randint(1, 12)):
        kind = draw.random()
        if kind < 0.6:
            pieces.append(draw.choice(FRAGMENTS))
        elif kind < 0.8:
            pieces.append("&" + draw.choice(NAMES))
        elif kind < 0.9:
            pieces.append("&" + draw.choice(BEGINNINGS))
        else:
            value = draw.randrange(0x110000)
            pieces.append(chr(value) if is_scalar(value) else draw.choice(FRAGMENTS))
    return "".join(pieces)


def damaged(draw, source):
    """A copy with one to three characters dropped, doubled, changed, moved or put in."""
    characters = list(source)
    for _ in range(draw.randint(1, 3)):
        at = draw.randrange(len(characters) + 1)
        other = draw.choice(draw.choice(FRAGMENTS))
        kind = draw.randrange(5)
        if kind == 0:
            del characters[at:at + 1]
        elif kind == 1:
            characters[at:at] = characters[at:at + 1]
        elif kind == 2:
            characters[at:at + 1] = [other]
        elif kind == 3:
            characters[at:at + 2] = reversed(characters[at:at + 2])
        else:
            characters.insert(at, other)
    return "".join(characters)


def drawn(count, seed):
    """Random joinings and damaged copies of them, half and half."""
    draw = random.Random(seed)
    for _ in range(count // 2):
        source = joining(draw)
        yield source
        yield damaged(draw, source)


def runs(count, seed):
    """Long sources: runs of plain text of any length between other fragments."""
    draw = random.Random(seed)
    for _ in range(count):
        pieces = []
        for _ in range(draw.randint(1, 8)):
            pieces.append(draw.choice(("x", "y z", "\u00E9", "\u20AC", "w\U0001F600")) * draw.randrange(120))
            pieces.append(joining(draw).replace("<", "").replace('"', "") if draw.random() < 0.9 else draw.choice('<"'))
        yield "".join(pieces)


def groups(count, seed, quick):
    """Every group by its name, with so many random sources; or, quickly, with less of each."""
    most, step = (2, 64) if quick else (4, 1)
    return {
        "sequences": lambda: sequences(most),
        "scalar values": lambda: scalar_values(step),
        "numbers": lambda: numbers(step),
        "powers of two": powers,
        "names": names,
        "random": lambda: drawn(count, seed),
        "runs": lambda: runs(count // 200, seed),
    }
