"""What the modelled machine counts for the events of real processors: the tables of
tools/processors, and the codes that follow from them (docs/RECORDING.md, Codes).

A table says of which quantities each event with its umask is the sum. In a unit that is counted
over each quantity of an event has a bit, and the event's umask has the bits of its quantities. A
select code has eight bits, so events share a select code as far as these suffice, and a quantity
has a line for each select code that has it.
"""

from __future__ import annotations

from dataclasses import dataclass, field
from functools import lru_cache
from pathlib import Path

from parts.command import Fault, read_file

FOLDER = Path(__file__).resolve().parent.parent / "processors"
QUANTITIES = "quantities.csv"
NOTHING = "nothing"  # what never occurs in the model, such as a miss of a page of 2 MiB
BITS = 8  # of a umask
FIRST_SELECT = 0x01

Name = tuple[str, str]  # an event and a umask, in upper case; without one the umask is empty
Code = tuple[int, int]  # a select code and umask bits


@dataclass(frozen=True)
class Quantities:
    """The quantities of the model with their meanings, and sums of them that have names."""

    meanings: dict[str, str]
    sums: dict[str, tuple[str, ...]]

    def of(self, words: str) -> tuple[str, ...]:
        """The quantities of some words, each a quantity or a sum. None twice."""
        found: dict[str, None] = {}
        for word in words.split():
            if word not in self.sums and word not in self.meanings and word != NOTHING:
                raise Fault(f"{word}: no quantity of {QUANTITIES}")
            found.update(dict.fromkeys(self.sums.get(word, (word,))))
        return tuple(found)


@dataclass(frozen=True)
class Row:
    """An event with its umask: its quantities, and what the processor counts otherwise."""

    name: str
    words: str
    quantities: tuple[str, ...]
    otherwise: str

    def key(self) -> Name:
        event, _, umask = self.name.upper().partition(":")
        return event, umask


@dataclass
class Group:
    """Quantities that have bits under one select code. A group of an event without umasks has no
    others, since such an event counts all of its select code."""

    quantities: list[str]
    is_whole: bool = False

    def bits(self, quantities: tuple[str, ...]) -> int:
        return sum(1 << self.quantities.index(quantity) for quantity in quantities)


@dataclass
class Table:
    """What is counted for a processor's events."""

    pmus: tuple[str, ...]
    title: str
    rows: dict[Name, Row]
    groups: list[Group] = field(default_factory=list)
    group_of: dict[str, int] = field(default_factory=dict)  # by event

    def select(self, event: str) -> int:
        return FIRST_SELECT + self.group_of[event.upper()]

    def code(self, event: str, umask: str) -> Code | None:
        """The code of an event with its umask, or without one, in the unit that is counted over. An
        event without umasks may have one named by the code, such as 0x4f."""
        row = self.rows.get((event.upper(), umask.upper())) or (
            self.rows.get((event.upper(), "")) if umask.lower().startswith("0x") else None
        )
        if row is None:
            return None
        return (
            self.select(event),
            self.groups[self.group_of[event.upper()]].bits(row.quantities) if umask else 0,
        )

    def lines(self) -> dict[str, list[Code]]:
        """The codes of the lines of each quantity."""
        found: dict[str, list[Code]] = {}
        for number, group in enumerate(self.groups):
            for bit, quantity in enumerate(group.quantities):
                if quantity != NOTHING:
                    found.setdefault(quantity, []).append((FIRST_SELECT + number, 1 << bit))
        return found


def _rows_of(path: Path) -> list[list[str]]:
    """The fields of each row, at most three: the last one may have commas."""
    return [
        [field.strip() for field in line.split(",", 2)]
        for line in read_file(str(path)).splitlines() if line.strip() and not line.startswith("#")
    ]


def read_quantities(folder: Path = FOLDER) -> Quantities:
    meanings: dict[str, str] = {}
    sums: dict[str, tuple[str, ...]] = {}
    for kind, name, text in _rows_of(folder / QUANTITIES):
        if kind == "QUANTITY":
            meanings[name] = text
        else:
            sums[name] = tuple(text.split())
    return Quantities(meanings, sums)


def read_table(path: Path) -> Table:
    quantities = read_quantities(path.parent)
    pmus, title = "", ""
    rows: dict[Name, Row] = {}
    for name, *fields in _rows_of(path):
        if name == "PMU":
            pmus, title = fields
            continue
        if not fields:
            raise Fault(f"{path}: {name}: a row is EVENT:UMASK,QUANTITIES,OTHERWISE")
        row = Row(name, fields[0], quantities.of(fields[0]), fields[1] if len(fields) > 1 else "")
        if row.key() in rows:
            raise Fault(f"{path}: {name} stands twice")
        rows[row.key()] = row
    table = Table(tuple(pmus.split()), title, rows)
    _give_codes(str(path), table)
    return table


def _give_codes(name: str, table: Table) -> None:
    """Finds a group for each event. Those of the most quantities come first, so that others find
    theirs there."""
    events: dict[str, dict[str, None]] = {}
    for (event, _), row in table.rows.items():
        events.setdefault(event, {}).update(dict.fromkeys(row.quantities))
    whole = {event for event, umask in table.rows if not umask}
    for event in sorted(events, key=lambda event: (event not in whole, -len(events[event]))):
        own = list(events[event])
        if len(own) > BITS:
            raise Fault(
                f"{name}: {event} has {len(own)} quantities, and a select code has {BITS} bits"
            )
        table.group_of[event] = _group_for(table.groups, own, event in whole)


def _group_for(groups: list[Group], own: list[str], is_whole: bool) -> int:
    if is_whole:
        found = next(
            (
                number for number, group in enumerate(groups)
                if group.is_whole and set(group.quantities) == set(own)
            ),
            None,
        )
    else:
        found = next(
            (number for number, group in enumerate(groups) if set(own) <= set(group.quantities)),
            None,
        )
        if found is None:
            found = _roomiest(groups, own)
    if found is None:
        groups.append(Group(own, is_whole))
        return len(groups) - 1
    groups[found].quantities += [
        quantity for quantity in own if quantity not in groups[found].quantities
    ]
    return found


def _roomiest(groups: list[Group], own: list[str]) -> int | None:
    """The group that shares the most quantities with an event's, and has room for the others."""
    shared = {number: len(set(own) & set(group.quantities)) for number, group in enumerate(groups)
              if not group.is_whole and len(set(own) | set(group.quantities)) <= BITS}
    best = max(shared, key=lambda number: shared[number], default=None)
    return best if best is not None and shared[best] else None


@lru_cache(maxsize=None)
def tables(folder: Path = FOLDER) -> dict[str, Table]:
    """The tables by the names of their PMUs."""
    found: dict[str, Table] = {}
    for path in sorted(folder.glob("*.csv")):
        if path.name != QUANTITIES:
            table = read_table(path)
            found.update(dict.fromkeys(table.pmus, table))
    return found
