"""A stream for programs that say nothing of what they count: each event of a unit happens again and
again. For `papi_programs`."""

from __future__ import annotations

import csv
from pathlib import Path
from typing import Iterator

# Where a program that is built without position independence has its code: 0x401000 and what
# follows.
FIRST_ADDRESS = 0x401000
ADDRESSES = 0x6000
STRIDE = 0x10

# What happens between two others: cycles and instructions, in the two modes.
CYCLES, INSTRUCTIONS = 0x3C, 0xC0
AMOUNT = 255
KERNEL_EVERY = 7


def kinds(unit: Path) -> list[tuple[int, int, int]]:
    """What can happen: component, select code and umask. An event with umasks has an occurrence for
    each of them."""
    component = -1
    happening: dict[tuple[int, int, int], None] = {}
    masked = set()
    for row in csv.reader(unit.read_text().splitlines()):
        if row and row[0] == "COMPONENT":
            component += 1
        elif row and row[0] == "EVENT":
            event = (component, int(row[2], 16))
            happening[(*event, 0)] = None
        elif row and row[0] == "UMASK":
            masked.add(event)
            happening[(*event, int(row[2], 16))] = None
    return [kind for kind in happening if kind[2] or kind[:2] not in masked]


def lines(unit: Path, count: int) -> Iterator[str]:
    """`count` lines of a stream: over and over again what can happen, each time between a cycle and
    an instruction."""
    around = [(0, CYCLES, 0), (0, INSTRUCTIONS, 0)]
    happening = [kind for other in kinds(unit) for kind in (*around, other)]
    for place in range(count):
        turn, index = divmod(place, len(happening))
        component, select, mask = happening[index]
        mode = "k" if (turn + index // 3) % KERNEL_EVERY == 0 else "u"
        address = FIRST_ADDRESS + place // 3 * STRIDE % ADDRESSES
        yield f"{component} {select:02x} {mask:02x} {mode} {AMOUNT} {address:x}\n"


def write(unit: Path, stream: Path, count: int) -> None:
    """Writes a stream of `count` lines."""
    with stream.open("w") as file:
        file.writelines(lines(unit, count))


def round_of(unit: Path) -> int:
    """How many occurrences there are until all has happened in both modes, over and over again the
    same."""
    return 3 * len(kinds(unit)) * KERNEL_EVERY
