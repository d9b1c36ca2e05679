"""How many of some native events a set takes, as far as the program's refusals have told."""

from __future__ import annotations

from dataclasses import dataclass
from typing import AbstractSet, Iterable, Iterator, Mapping

from parts.planning.asking import Tried

MOST_OF_SET = 32  # events, and native events (docs/FORMATS.md, Limits)


@dataclass(frozen=True)
class Limit:
    """A set takes at most so many of these native events, which are allowed no other counters. If
    none are named, it takes no more of any."""

    natives: frozenset[str]
    counters: tuple[str, ...]
    most: int


class Limits:
    """The limits of the sets of a component. NATIVES_OF has the native events of each event."""

    def __init__(self, natives_of: Mapping[str, AbstractSet[str]]):
        self._natives_of = natives_of
        self._by_counters: dict[frozenset[str], set[str]] = {}
        self._is_full_of = {"events": False, "natives": False}

    def learn(self, tried: Tried) -> bool:
        """Whether this tells something new."""
        before = self._size()
        for conflict in tried.conflicts:
            self._by_counters.setdefault(conflict.counters, set()).update(conflict.natives)
        for events in tried.full:
            natives = frozenset[str]().union(*(self._natives_of[event] for event in events))
            kind = "natives" if len(natives) > MOST_OF_SET else "events"
            self._is_full_of[kind] = True
        return self._size() != before

    def _size(self) -> tuple[int, int]:
        names = sum(map(len, self._by_counters.values()))
        return names + len(self._by_counters), sum(self._is_full_of.values())

    def all(self) -> list[Limit]:
        """Those of counters, the narrowest first, and those of any set."""
        found = [
            Limit(frozenset(natives), tuple(sorted(counters)), len(counters))
            for counters, natives in self._by_counters.items()
        ]
        found.sort(key=lambda limit: (limit.most, limit.counters))
        if self._is_full_of["natives"]:
            every = frozenset[str]().union(*self._natives_of.values())
            found.append(Limit(every, (), MOST_OF_SET))
        if self._is_full_of["events"]:
            found.append(Limit(frozenset(map(own_name, self._natives_of)), (), MOST_OF_SET))
        return found


def own_name(event: str) -> str:
    """What stands for an event itself among native events, whose names have no blank."""
    return f"{event} "


def masks_of(
    events: Iterable[str], natives_of: Mapping[str, AbstractSet[str]], limits: Iterable[Limit]
) -> tuple[list[int], list[tuple[int, int]]]:
    """Events and limits as bits: one bit for each name that a limit has."""
    told = list(limits)
    bits: dict[str, int] = {}
    for limit in told:
        for name in sorted(limit.natives):
            bits.setdefault(name, 1 << len(bits))

    def mask(names: Iterable[str]) -> int:
        return sum(bits.get(name, 0) for name in set(names))

    of_events = [mask([*natives_of[event], own_name(event)]) for event in events]
    return of_events, list(_of_limits(told, bits))


def _of_limits(limits: Iterable[Limit], bits: Mapping[str, int]) -> Iterator[tuple[int, int]]:
    for limit in limits:
        yield sum(bits[name] for name in limit.natives), limit.most
