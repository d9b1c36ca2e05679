"""A map file: ranges of program counters, each cut into buckets. Its rows are
`RANGE,name,START,WIDTH,BUCKETS`."""

from __future__ import annotations

import re
from dataclasses import dataclass
from typing import Iterable

from formats.rows import MOST_BUCKETS, MOST_WIDTH
from parts.elf_file import Function

MOST_RANGES = 1024
LONGEST_NAME = 64
ADDRESSES = 1 << 64


@dataclass(frozen=True)
class Stretch:
    """A function's addresses, and how many there are up to the next function."""

    name: str
    start: int
    size: int
    room: int

    def width(self, widest: int) -> int:
        """The largest power of two up to `widest` whose buckets cover the function and end before
        the next one."""
        width = widest
        while width > 1 and -(-self.size // width) * width > self.room:
            width //= 2
        return width

    def buckets(self, widest: int) -> int:
        return -(-self.size // self.width(widest))


@dataclass(frozen=True)
class Range:
    name: str
    start: int
    width: int
    buckets: int

    def row(self) -> str:
        return f"RANGE,{self.name},{self.start:#x},{self.width},{self.buckets}"


def ranges_of(functions: list[Function], base: int) -> list[Range]:
    """A range for each function, with the narrowest buckets of which there are not too many. The
    functions stand in order."""
    stretches = _stretches(largest(functions), base)
    widest = 1
    while (
        widest < MOST_WIDTH and sum(stretch.buckets(widest) for stretch in stretches) > MOST_BUCKETS
    ):
        widest *= 2
    room = MOST_BUCKETS
    ranges: list[Range] = []
    for stretch in stretches:
        buckets = min(stretch.buckets(widest), room)
        room -= buckets
        if buckets:
            ranges.append(Range(stretch.name, stretch.start, stretch.width(widest), buckets))
    return ranges


def largest(functions: list[Function]) -> list[Function]:
    """As many functions as a map has ranges, the largest ones, in their order."""
    kept = sorted(functions, key=lambda function: -function.size)[:MOST_RANGES]
    return sorted(kept, key=lambda function: function.address)


def _stretches(functions: list[Function], base: int) -> list[Stretch]:
    ends = [function.address for function in functions[1:]] + [ADDRESSES - base]
    names = map_names(function.name for function in functions)
    return [
        Stretch(
            name, base + function.address, min(function.size, end - function.address),
            end - function.address,
        )
        for function, name, end in zip(functions, names, ends)
    ]


def map_names(names: Iterable[str]) -> list[str]:
    """Names as a map has them: other characters become `_`, and what is repeated has a number at
    its end."""
    taken: set[str] = set()
    given: list[str] = []
    for name in names:
        plain = re.sub(r"[^A-Za-z0-9_-]", "_", name)[:LONGEST_NAME]
        number, unique = 2, plain
        while unique in taken:
            ending = f"_{number}"
            unique = plain[: LONGEST_NAME - len(ending)] + ending
            number += 1
        taken.add(unique)
        given.append(unique)
    return given
