"""A unit file: its rows, its limits and its text (docs/FORMATS.md, The unit file)."""

from __future__ import annotations

import re
from dataclasses import dataclass

from formats.rows import NAME
from formats.units import MODIFIERS

MOST_COUNTERS = 32
MOST_EVENTS = 1024
MOST_UMASKS = 16
MOST_BYTES = 1_048_576
LONGEST_DESCRIPTION = 200


@dataclass(frozen=True)
class Fixed:
    """The modifiers that a umask fixes: edge, inversion and a least amount."""

    edge: bool = False
    invert: bool = False
    amount: int = 0

    def row(self) -> str:
        flags = ("e" if self.edge else "") + ("i" if self.invert else "")
        return f"UMASK_MODIFIERS,{flags or '-'},{self.amount}"


NOTHING_FIXED = Fixed()


@dataclass(frozen=True)
class Umask:
    """A umask of an event. Without counters of its own it has those of the event."""

    name: str
    bits: int
    is_default: bool
    stands_alone: bool
    description: str
    counters: tuple[str, ...] = ()
    fixed: Fixed = NOTHING_FIXED

    def rows(self) -> list[str]:
        flags = ("d" if self.is_default else "") + ("n" if self.stands_alone else "")
        rows = [f"UMASK,{self.name},{self.bits:02x},{flags or '-'},{plain(self.description)}"]
        if self.counters:
            rows.append(f"UMASK_COUNTERS,{' '.join(self.counters)}")
        if self.fixed != NOTHING_FIXED:
            rows.append(self.fixed.row())
        return rows


@dataclass(frozen=True)
class Event:
    name: str
    select: int
    counters: tuple[str, ...]
    description: str
    umasks: tuple[Umask, ...]

    def rows(self) -> list[str]:
        own = (
            f"EVENT,{self.name},{self.select:02x},{' '.join(self.counters)},"
            f"{plain(self.description)}"
        )
        return [own] + [row for umask in self.umasks for row in umask.rows()]


@dataclass(frozen=True)
class Unit:
    """A unit of one component."""

    component: str
    pmu: str
    width: int
    programmable: int
    fixed: frozenset[int]
    events: tuple[Event, ...]

    def rows(self) -> list[str]:
        """An event stands on the first counter that is free, and Linux takes fixed ones before
        others."""
        rows = [f"COMPONENT,{self.component},{self.pmu}"]
        rows += [f"COUNTER,F{number},{self.width},F" for number in sorted(self.fixed)]
        rows += [f"COUNTER,P{number},{self.width},P" for number in range(self.programmable)]
        return rows + [row for event in self.events for row in event.rows()]


def plain(description: str) -> str:
    """A description as a field can have it: one line of printable ASCII without commas, at most 200
    characters."""
    words = " ".join(description.replace(",", ";").split())
    return "".join(letter if " " <= letter <= "~" else "?" for letter in words)[
        :LONGEST_DESCRIPTION
    ].rstrip()


def is_name(text: str) -> bool:
    return re.fullmatch(NAME, text) is not None


def is_umask_name(text: str) -> bool:
    return is_name(text) and text.lower() not in MODIFIERS
