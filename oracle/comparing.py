"""Comparing sides on groups of sources: batches go to every side, and a difference is shown with its smallest form."""
import argparse
import sys
import time
from itertools import islice

from sides import Batch, split, stop
from sources import groups

BATCH = 4_000
MOST_SHOWN = 20
WHERE = {"decode": ("text", "attribute"), "escape": ("escape, text mode", "escape, attribute mode")}


def shorter(source):
    """Each source with some characters less, many first."""
    length = len(source)
    size = length // 2
    while size:
        for at in range(0, length - size + 1, max(1, size // 2)):
            yield source[:at] + source[at + size:]
        size //= 2


class Comparison:
    """A first side, others that must give the same, which sources they are asked, and how it went so far."""

    def __init__(self, first, others, takes=lambda source: True):
        self.first, self.others, self.takes = first, others, takes
        self.compared = self.differ = self.left_out = 0
        self.began = time.time()
        self.spent = {side.name: 0.0 for side in [first, *others]}

    def ask(self, side, kind, batch):
        """A side's answers, with the time it took."""
        start = time.time()
        answers = getattr(side, kind)(batch)
        self.spent[side.name] += time.time() - start
        return answers

    def differing(self, kind, side, batch, expected=None, given=None):
        """The answers that differ, two for each source: index, what the first side says, what the other says."""
        expected = split(expected if expected is not None else self.ask(self.first, kind, batch))
        given = split(given if given is not None else self.ask(side, kind, batch))
        if not len(expected) == len(given) == 2 * len(batch.sources):
            stop(f"{2 * len(batch.sources)} answers were asked for: {self.first.name} gave {len(expected)} and {side.name} {len(given)}")
        return [(index, *pair) for index, pair in enumerate(zip(expected, given)) if pair[0] != pair[1]]

    def smallest(self, kind, place, side, source):
        """The smallest source found, by leaving out characters, on which the side differs in the same context or mode."""
        while True:
            candidates = [candidate for candidate in shorter(source) if self.takes(candidate) for _ in range(getattr(side, "tries", 1))]
            batch = Batch([candidate.encode() for candidate in candidates])
            found = [index // 2 for index, _, _ in self.differing(kind, side, batch) if index % 2 == place]
            if not found:
                return source
            source = min((candidates[index] for index in found), key=len)

    def show(self, kind, place, side, source):
        """One difference, as it was met and in its smallest form."""
        small = self.smallest(kind, place, side, source)
        print(f"\ndiffer in {WHERE[kind][place]}: {source[:200]!r}, smallest {small[:200]!r}")
        batch = Batch([small.encode()] * 2 * getattr(side, "tries", 1))
        for index, *pair in self.differing(kind, side, batch)[:1]:
            for name, (text, codes) in zip((self.first.name, side.name), pair):
                print(f"    {name}: {text.decode(errors='replace')[:200]!r} {codes[:40]}")
            if hasattr(side, "explain"):
                print(f"    {side.explain(index)}")

    def take(self, kind, sources, batch):
        """Compare one batch."""
        expected = self.ask(self.first, kind, batch)
        wrong = set()
        for side in self.others:
            if hasattr(side, kind):
                given = self.ask(side, kind, batch)
                if given != expected:
                    found = [index for index, _, _ in self.differing(kind, side, batch, expected, given)]
                    for index in found[:max(0, MOST_SHOWN - self.differ - len(wrong))]:
                        self.show(kind, index % 2, side, sources[index // 2])
                    wrong |= set(found)
        self.compared += 2 * len(sources)
        self.differ += len(wrong)

    def progress(self, name, end="\r"):
        """One line that is written over."""
        print(f"{name}: {self.compared} compared, {self.differ} differ, {time.time() - self.began:.0f} s    ", end=end, flush=True)

    def group(self, name, group, kinds):
        """Compare a group of sources."""
        sources = iter(group)
        while some := list(islice(sources, BATCH)):
            taken = [source for source in some if self.takes(source)]
            self.left_out += len(some) - len(taken)
            batch = Batch([source.encode() for source in taken])
            for kind in kinds:
                self.take(kind, taken, batch)
            self.progress(name)
        self.progress(name, end="\n")

    def finish(self):
        """The last lines, and the program's end."""
        for side in [self.first, *self.others]:
            side.close()
        print("seconds: " + ", ".join(f"{name} {seconds:.0f}" for name, seconds in self.spent.items()))
        if self.left_out:
            print(f"{self.left_out} sources left out")
        print(f"{self.compared} compared, {self.differ} differ")
        sys.exit(self.differ != 0)


class Parser(argparse.ArgumentParser):
    """Options; wrong use prints one line."""

    def error(self, message):
        stop(f"usage: {self.usage}")


def read_options(usage, add_own):
    """What and how much is compared, and what a command adds to that."""
    parser = Parser(usage=f"{usage} [--quick] [--random N] [--seed N] [--group NAME]")
    add_own(parser)
    parser.add_argument("--quick", action="store_true")
    parser.add_argument("--random", type=int)
    parser.add_argument("--seed", type=int, default=1)
    parser.add_argument("--group")
    return parser.parse_args()


def chosen_groups(options):
    """The groups that options ask for: a million random sources, unless told otherwise."""
    count = options.random if options.random is not None else 10_000 if options.quick else 1_000_000
    all_groups = groups(count, options.seed, options.quick)
    if options.group is not None and options.group not in all_groups:
        stop(f"no group {options.group!r}: give one of {', '.join(map(repr, all_groups))}")
    return {name: group for name, group in all_groups.items() if options.group in (None, name)}
