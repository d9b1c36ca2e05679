"""The pictures of sets: the assignment of one that fits, the groups of one whose events take turns,
and a conflict."""

from __future__ import annotations

from dataclasses import dataclass, field
from typing import Sequence

from formats.scripts import calls_of
from parts.report.asking import Tools
from parts.report.matrix import Picture, Row
from parts.report.replies import read_replies
from parts.report.story import Conflict, Setup
from parts.report.unit_counters import Counter, pmu_of


@dataclass(frozen=True)
class Group:
    """Native events that have their turn together."""

    natives: tuple[str, ...]
    counters: dict[str, str] = field(default_factory=dict)


def natives_of(tools: Tools, events: Sequence[str]) -> dict[str, list[str]]:
    """The native events of a set's events, each once and in order, with the events that need it."""
    needed: dict[str, list[str]] = {}
    for event in events:
        for native in tools.natives_of(event):
            needed.setdefault(native, []).append(event)
    return needed


def assignment_of(tools: Tools, events: Sequence[str]) -> dict[str, str]:
    """The counter of each native event of a set, for one of which no step has asked."""
    if not events:
        return {}
    script = ["0 create", *(f"0 add 0 {event}" for event in events), "0 assign 0"]
    steps, _ = read_replies(calls_of(script), tools.run(script).lines)
    return dict(result.rpartition("=")[::2] for result in steps[-1].results)


def groups_of(tools: Tools, events: Sequence[str]) -> list[Group]:
    """The groups in which the native events of these events take turns: each begins where the one
    before it ends, and is as long as it fits."""
    natives = list(natives_of(tools, events))
    script = []
    for first in range(len(natives)):
        script.append("0 create")
        for native in natives[first:]:
            script += [f"0 add {first} {native}", f"0 assign {first}"]
    steps, _ = read_replies(calls_of(script), tools.run(script).lines) if script else ([], [])
    groups: list[Group] = []
    first = 0
    while first < len(natives):
        own = [step for step in steps if step.call.name != "create" and step.set == first]
        fitting = next(
            (place for place, step in enumerate(own[::2]) if not step.is_done), len(natives) - first
        )
        size = max(fitting, 1)
        counters = (
            dict(result.rpartition("=")[::2] for result in own[2 * size - 1].results) if fitting
            else {}
        )
        groups.append(Group(tuple(natives[first : first + size]), counters))
        first += size
    return groups


class Pictures:
    def __init__(self, tools: Tools, counters: dict[str, list[Counter]]):
        self.tools = tools
        self.counters = counters

    def of_setup(self, setup: Setup, title: str = "") -> Picture | None:
        """The assignment of a set, or none if it has no events."""
        return self._of(
            natives_of(self.tools, setup.events),
            setup.counters or assignment_of(self.tools, setup.events), title,
        )

    def of_group(self, setup: Setup, group: Group, title: str = "") -> Picture | None:
        needed = {
            native: events for native, events in natives_of(self.tools, setup.events).items()
            if native in group.natives
        }
        return self._of(needed, group.counters, title)

    def of_conflict(self, conflict: Conflict, title: str = "") -> Picture | None:
        """The events of a set with the one that was refused, those to blame marked, and the
        counters that they are allowed."""
        held = natives_of(self.tools, conflict.held)
        needed = natives_of(self.tools, [*conflict.held, conflict.event])
        held_counters = conflict.held_counters or assignment_of(self.tools, conflict.held)
        rows = [
            self._row(
                native, events, held_counters, native in conflict.blamed,
                "" if native in held else "to be added",
            )
            for native, events in needed.items()
        ]
        return Picture(self._columns(needed), rows, conflict.counters, title) if rows else None

    def _of(
        self, needed: dict[str, list[str]], counters: dict[str, str], title: str
    ) -> Picture | None:
        rows = [self._row(native, events, counters) for native, events in needed.items()]
        return Picture(self._columns(needed), rows, title=title) if rows else None

    def _row(
        self, native: str, events: Sequence[str], counters: dict[str, str], is_blamed: bool = False,
        remark: str = "",
    ) -> Row:
        others = [event for event in events if self.tools.is_preset(event)]
        told = [remark] * bool(remark) + [f"for {', '.join(others)}"] * bool(others)
        return Row(
            native, self.tools.counters_of(native), counters.get(native), "; ".join(told), is_blamed
        )

    def _columns(self, natives: dict[str, list[str]]) -> list[Counter]:
        return self.counters.get(pmu_of(next(iter(natives), "")), [])
