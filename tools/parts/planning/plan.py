"""The plan for a list of events: those that are refused, and the sets of each run."""

from __future__ import annotations

from dataclasses import dataclass, replace
from itertools import zip_longest
from typing import Sequence

from parts.command import Fault
from parts.event_refusals import Refusal, refusals_of
from parts.planning.asking import Program, Tried
from parts.planning.fewest import Component, Fewest

MOST_EVENTS = 512
OPTIONS = ("-P PRESETS and -C CPU", "--presets PRESETS and --cpu CPU")


@dataclass(frozen=True)
class Plan:
    events: tuple[str, ...]  # that are taken, each once
    same: tuple[tuple[str, str], ...]  # names of an event that another one names already
    refused: tuple[Refusal, ...]
    components: tuple[tuple[str, Fewest], ...]  # by the name before `::`

    @property
    def runs(self) -> list[list[tuple[str, Tried]]]:
        """The sets that count at one time: at most one of each component."""
        columns = [[(name, each) for each in found.sets] for name, found in self.components]
        return [[each for each in row if each is not None] for row in zip_longest(*columns)]

    @property
    def at_least(self) -> int:
        """Runs."""
        return max((found.at_least for _, found in self.components), default=0)

    @property
    def is_least(self) -> bool:
        return len(self.runs) == self.at_least


def plan_of(files: Sequence[str], names: Sequence[str]) -> Plan:
    """FILES are the program's words for a unit and its presets."""
    for name in names:
        _check_form(name)
    asked = tuple(dict.fromkeys(names))
    if len(asked) > MOST_EVENTS:
        raise Fault(f"{len(asked):,} events, and at most {MOST_EVENTS} are planned")
    program = Program(files)
    alone = dict(zip(asked, program.try_sets([[name] for name in asked])))
    taken = {name: tried for name, tried in alone.items() if tried.taken}
    events, same = _told_apart(taken)
    refused = [name for name in asked if name not in taken]
    return Plan(
        tuple(events),
        tuple(same),
        tuple(map(_in_own_words, refusals_of(files, refused))),
        tuple(
            (component, Component(program, natives).fewest())
            for component, natives in _by_component(events, taken).items()
        ),
    )


def _in_own_words(refusal: Refusal) -> Refusal:
    """A hint names the options of the program's scripts."""
    return replace(refusal, hint=refusal.hint.replace(*OPTIONS))


def _check_form(name: str) -> None:
    if not name or not all("!" <= letter <= "~" for letter in name):
        raise Fault(f"{name!r} is no name of an event: it has characters from ! to ~")


def _told_apart(taken: dict[str, Tried]) -> tuple[list[str], list[tuple[str, str]]]:
    """The names of different events, and each further name of one with the name that it has."""
    by_name: dict[str, str] = {}
    same: list[tuple[str, str]] = []
    for name, tried in taken.items():
        (own,) = tried.names
        if by_name.setdefault(own, name) != name:
            same.append((name, by_name[own]))
    return list(by_name.values()), same


def _by_component(
    events: Sequence[str], taken: dict[str, Tried]
) -> dict[str, dict[str, frozenset[str]]]:
    """The events of each component with their native events. All of these have one component, and
    begin with the name of its pmu."""
    found: dict[str, dict[str, frozenset[str]]] = {}
    for event in events:
        natives = frozenset(taken[event].counters)
        component = min(natives).partition("::")[0]
        found.setdefault(component, {})[event] = natives
    return found
