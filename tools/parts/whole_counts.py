"""What a whole program counted: each process and thread, by event."""

from __future__ import annotations

from collections import Counter
from dataclasses import dataclass
from typing import Mapping, Sequence

Counts = Mapping[str, int]


@dataclass(frozen=True)
class ThreadCounts:
    number: int  # from 1 on
    counts: Counts


@dataclass(frozen=True)
class ProcessCounts:
    number: int  # from 1 on
    parent: int  # 0 of the first one
    program: str
    total: Counts
    threads: tuple[ThreadCounts, ...]


@dataclass(frozen=True)
class WholeCounts:
    command: tuple[str, ...]
    events: tuple[str, ...]
    total: Counts
    processes: tuple[ProcessCounts, ...]
    uncounted_children: int
    status: int  # of the first process: its status, or the number of a signal below 0
    functions: tuple[str, ...] = ()  # what happened in calls of these alone


def summed(events: Sequence[str], parts: Sequence[Counts]) -> Counts:
    return {event: sum(part[event] for part in parts) for event in events}


def kinds_of_all(parts: Sequence[Counter[str]]) -> Counter[str]:
    return sum(parts, Counter[str]())
