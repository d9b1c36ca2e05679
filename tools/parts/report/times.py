"""The time of a thread along the axis of its line: cycles if its stream has them, the stamps of its
stream, or else occurrences."""

from __future__ import annotations

from bisect import bisect_right
from dataclasses import dataclass, field
from typing import Callable, Mapping, Sequence

from formats.scripts import calls_of
from parts.report.asking import Tools
from parts.report.replies import read_replies
from parts.report.turns import Clock

CYCLES = ("PAPI_TOT_CYC", "CYCLES")  # the first one that the tables have
CUTS = 240  # places of a thread at which its cycles are read
BOTH_MODES = 3


@dataclass(frozen=True)
class Time:
    """From a number of occurrences to the time at which they had come."""

    unit: str = "occurrences"
    at: Callable[[int], int] = field(default=lambda position: position)


class _Read:
    """Cycles at some positions, and between them as if they came evenly."""

    def __init__(self, positions: Sequence[int], cycles: Sequence[int]):
        self.positions, self.cycles = positions, cycles

    def at(self, position: int) -> int:
        place = bisect_right(self.positions, position) - 1
        if place + 1 >= len(self.positions):
            return self.cycles[-1]
        low, high = self.positions[place], self.positions[place + 1]
        return self.cycles[place] + (self.cycles[place + 1] - self.cycles[place]) * (
            position - low
        ) // (high - low)


def times_of(
    tools: Tools, consumed: Mapping[int, int], clocks: Callable[[int], Clock],
    streams: Sequence[str],
) -> dict[int, Time]:
    """The time of each thread. All have the same unit."""
    moving = [thread for thread, total in consumed.items() if total]
    if moving and all(clocks(thread).stamps is not None for thread in moving):
        return {thread: Time("ticks", clocks(thread).at) for thread in consumed}
    read = _cycles_of(tools, {thread: consumed[thread] for thread in moving}, streams)
    return (
        {
            thread: Time("cycles", read[thread].at) if thread in read
            else Time("cycles", lambda position: 0) for thread in consumed
        }
        if read
        else {thread: Time() for thread in consumed}
    )


def _cycles_of(
    tools: Tools, consumed: Mapping[int, int], streams: Sequence[str]
) -> dict[int, _Read]:
    """The cycles of each thread, or of none if one has fewer of them than lines: then they are no
    time."""
    event = next((name for name in CYCLES if tools.natives_of(name)), None)
    if event is None or not consumed:
        return {}
    script = []
    for thread, total in consumed.items():
        script += [
            f"{thread} create", f"{thread} add 0 {event}", f"{thread} domain 0 {BOTH_MODES}",
            f"{thread} start 0",
        ]
        for low, high in zip(_cuts(total), _cuts(total)[1:]):
            script += [f"{thread} run {high - low}", f"{thread} read 0"]
    steps, _ = read_replies(calls_of(script), tools.run(script, streams).lines)
    if any(step.is_refused for step in steps):
        return {}
    found = {}
    for thread, total in consumed.items():
        cycles = [
            0,
            *(
                int(step.results[0]) for step in steps
                if step.call.thread == thread and step.call.name == "read"
            ),
        ]
        if cycles[-1] < total:
            return {}
        found[thread] = _Read(_cuts(total), cycles)
    return found


def _cuts(total: int) -> list[int]:
    pieces = min(CUTS, total)
    return [total * piece // pieces for piece in range(pieces + 1)]
