"""The crates of the repository and what each cites, as crates.txt has them, laid out in levels."""

from __future__ import annotations

from dataclasses import dataclass, field
from graphlib import CycleError, TopologicalSorter
from pathlib import Path

from parts.command import Fault, read_file

SWEEPS = 24
BOX_WIDTH = 132
BOX_GAP = 14
LINE_WIDTH = 10  # the room of a line that passes a level


def read_crates(path: Path) -> dict[str, list[str]]:
    """Each crate with the crates of the repository that it cites, in alphabetical order. Crates of
    the kit are left out."""
    cited: dict[str, list[str]] = {}
    for number, line in enumerate(read_file(str(path)).split("\n"), start=1):
        head, colon, tail = line.partition("#")[0].partition(":")
        if colon:
            if not head.split():
                raise Fault(f"{path.name}: line {number}: no name before the colon")
            cited[head.split()[0]] = tail.split()
    return {name: sorted(set(cited[name]) & set(cited)) for name in sorted(cited)}


def upwards(cited: dict[str, list[str]]) -> list[str]:
    """The crates in an order in which each stands behind all that it cites."""
    try:
        return list(TopologicalSorter(cited).static_order())
    except CycleError as error:
        raise Fault(
            f"crates that cite one another in a ring: {', '.join(sorted(set(error.args[1])))}"
        ) from None


def below(cited: dict[str, list[str]]) -> dict[str, set[str]]:
    """All crates that a crate stands on, near and far."""
    reached: dict[str, set[str]] = {}
    for name in upwards(cited):
        reached[name] = set(cited[name]).union(*(reached[other] for other in cited[name]))
    return reached


def nearest(cited: dict[str, list[str]]) -> dict[str, list[str]]:
    """What each crate cites, without what it reaches through another one that it cites."""
    reached = below(cited)
    return {
        name: [other for other in uses if not any(other in reached[between] for between in uses)]
        for name, uses in cited.items()
    }


def levels(cited: dict[str, list[str]]) -> dict[str, int]:
    """The level of each crate: 0 if it cites none, else one above the highest that it cites."""
    level: dict[str, int] = {}
    for name in upwards(cited):
        level[name] = 1 + max((level[other] for other in cited[name]), default=-1)
    return level


@dataclass
class Node:
    """A crate, or the place where a line passes a level (then `name` is empty)."""

    name: str
    level: int
    up: list[Node] = field(default_factory=list)
    down: list[Node] = field(default_factory=list)
    x: float = 0.0

    @property
    def width(self) -> float:
        return BOX_WIDTH if self.name else LINE_WIDTH


@dataclass
class Layout:
    rows: list[list[Node]]
    # for each line its nodes, from the crate that cites to the one that is cited
    chains: list[list[Node]]
    width: float


def lay_out(cited: dict[str, list[str]]) -> Layout:
    level = levels(cited)
    crates = {name: Node(name, level[name]) for name in cited}
    rows: list[list[Node]] = [[] for _ in range(1 + max(level.values(), default=0))]
    for node in crates.values():
        rows[node.level].append(node)
    chains = []
    for name, uses in nearest(cited).items():
        for other in uses:
            chain = _chain(crates[name], crates[other])
            chains.append(chain)
            for node in chain[1:-1]:
                rows[node.level].append(node)
    _order(rows)
    return Layout(rows, chains, _place(rows))


def _chain(upper: Node, lower: Node) -> list[Node]:
    chain = (
        [upper] + [Node("", level) for level in range(upper.level - 1, lower.level, -1)] + [lower]
    )
    for one, next_one in zip(chain, chain[1:]):
        one.down.append(next_one)
        next_one.up.append(one)
    return chain


def _order(rows: list[list[Node]]) -> None:
    """Orders each row by the mean place of what its nodes hang on, from below and from above in
    turn."""
    for sweep in range(SWEEPS):
        downward = sweep % 2 == 1
        for row in reversed(rows) if downward else rows:
            for place, node in enumerate(row):
                near = node.up if downward else node.down
                node.x = (
                    _mean([_fraction(rows, other) for other in near]) if near
                    else place / max(len(row) - 1, 1)
                )
            row.sort(key=lambda node: node.x)


def _fraction(rows: list[list[Node]], node: Node) -> float:
    row = rows[node.level]
    return next(place for place, other in enumerate(row) if other is node) / max(len(row) - 1, 1)


def _mean(numbers: list[float]) -> float:
    return sum(numbers) / len(numbers)


def _place(rows: list[list[Node]]) -> float:
    """Gives each node its middle, and the whole its width."""
    widths = [sum(node.width + BOX_GAP for node in row) for row in rows]
    width = max(widths, default=0.0)
    for row, own in zip(rows, widths):
        left = (width - own) / 2
        for node in row:
            node.x = left + (node.width + BOX_GAP) / 2
            left += node.width + BOX_GAP
    for sweep in range(2 * SWEEPS):
        for row in reversed(rows) if sweep % 2 else rows:
            wanted = [_mean([other.x for other in node.up + node.down] or [node.x]) for node in row]
            _settle(row, wanted, width)
    return width


def _settle(row: list[Node], wanted: list[float], width: float) -> None:
    """Moves the nodes of a row towards where they want to be, in their order, with their gaps, and
    inside the width."""
    low, at = [], 0.0
    for node, want in zip(row, wanted):
        at = max(want, at + node.width / 2 + BOX_GAP / 2)
        low.append(at)
        at += node.width / 2 + BOX_GAP / 2
    high, at = [], width
    for node, want in zip(reversed(row), reversed(wanted)):
        at = min(want, at - node.width / 2 - BOX_GAP / 2)
        high.append(at)
        at -= node.width / 2 + BOX_GAP / 2
    high.reverse()
    for node, one, other in zip(row, low, high):
        node.x = (one + other) / 2
    at = width
    for node in reversed(row):
        node.x = min(node.x, at - node.width / 2 - BOX_GAP / 2)
        at = node.x - node.width / 2 - BOX_GAP / 2
    at = 0.0
    for node in row:
        node.x = max(node.x, at + node.width / 2 + BOX_GAP / 2)
        at = node.x + node.width / 2 + BOX_GAP / 2
