"""The kinds of occurrences that the tool of Valgrind counts, and the lines of a stream that stand
for each, as the tool itself lists them."""

from __future__ import annotations

import re
import subprocess
from dataclasses import dataclass

from parts import valgrind
from parts.codes import Codes
from parts.command import Fault
from parts.machine import Machine

LINE = re.compile(r" +kind ([0-9]+) (\w+) (-|[0-9]+ [0-9a-f]{2} [0-9a-f]{2} u)")

# What a kind asks of the machine that is modelled. The second and the third level are of data and
# of instructions.
FIRST_OF_DATA, FIRST_OF_FETCHES = {"l1d"}, {"l1i"}
SECOND = FIRST_OF_DATA | FIRST_OF_FETCHES | {"l2"}
THIRD = SECOND | {"l3"}
PREDICTOR = "predictor"
WHOLE = THIRD | {"dtlb", "itlb", PREDICTOR}
PARTS = (
    ("l1d_", FIRST_OF_DATA),
    ("load_hits", FIRST_OF_DATA),
    ("l1i_", FIRST_OF_FETCHES),
    ("l2_", SECOND),
    ("l3_", THIRD),
    ("split_", FIRST_OF_DATA),
    ("dtlb_", {"dtlb"}),
    ("itlb_", {"itlb"}),
    ("mispredicted_", {PREDICTOR}),
    ("cycles", WHOLE),
    ("stalls", WHOLE),
)


@dataclass(frozen=True)
class Kind:
    number: int
    name: str
    heads: tuple[str, ...]  # of its lines, up to the amount


def kinds_with(codes: Codes) -> list[Kind]:
    """All kinds whose lines have one of these codes, in the tool's order."""
    words = [str(valgrind.tool()), f"--tool={valgrind.NAME}", "--help-debug"]
    listed = subprocess.run(
        words,
        env=valgrind.environment(words, {}),
        stdin=subprocess.DEVNULL,
        capture_output=True,
        text=True,
    )
    own = {
        name: tuple(f"0 {select:02x} {mask:02x} u" for select, mask in heads)
        for name, heads in codes.lines
    }
    found: list[Kind] = []
    for match in filter(None, map(LINE.fullmatch, listed.stdout.splitlines())):
        number, name, head = match.groups()
        heads = own.get(name, ()) if own else (head,) * (head != "-")
        if heads:
            found.append(Kind(int(number), name, heads))
    if not found:
        raise Fault("the tool of Valgrind can't be run")
    return found


def parts_for(names: set[str]) -> set[str]:
    """The parts of the machine that have to be modelled for these kinds."""
    return {
        part
        for name in names
        for prefix, parts in PARTS
        if name.startswith(prefix)
        for part in parts
    }


def reduced(machine: Machine, names: set[str]) -> Machine:
    """The machine without the parts that these kinds do not ask."""
    parts = parts_for(names)
    left_out = {part: None for part in machine.shapes if part not in parts}
    return Machine(
        {**machine.shapes, **left_out},
        machine.predictor if PREDICTOR in parts else 0,
        machine.costs,
    )


def mask_of(kinds: list[Kind], names: set[str]) -> int:
    return sum(1 << kind.number for kind in kinds if kind.name in names)
