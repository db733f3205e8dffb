"""What the generators of systems and of games share: numbers at random from a seed, and texts written in blocks."""

from __future__ import annotations

import sys
from array import array
from itertools import islice
from random import Random
from typing import Callable, Iterable, Iterator

LINES_IN_BLOCK = 65_536
SEED = 20_260_101
BITS_OF_NUMBER = 32


class Dice:
    """Numbers at random, many at a time. The same numbers come on each run."""

    def __init__(self) -> None:
        self.random = Random(SEED)

    def numbers(self, count: int, sides: int) -> list[int]:
        """So many numbers below `sides`."""
        bits = self.random.getrandbits(BITS_OF_NUMBER * count)
        drawn = array("I", bits.to_bytes(BITS_OF_NUMBER // 8 * count, "little"))
        return [number % sides for number in drawn]


def blocks(lines: Iterable[str]) -> Iterator[str]:
    """The lines, joined, many at a time."""
    rest = iter(lines)
    while block := "".join(islice(rest, LINES_IN_BLOCK)):
        yield block


def write_named(generators: dict[str, Callable[..., Iterable[str]]]) -> None:
    """Writes to standard output what the generator that the command line names makes of the numbers that follow its name."""
    if len(sys.argv) < 2 or sys.argv[1] not in generators:
        sys.exit(f"usage: {sys.argv[0]} {'|'.join(generators)} NUMBER..")
    name, *numbers = sys.argv[1:]
    for block in blocks(generators[name](*map(int, numbers))):
        sys.stdout.write(block)
