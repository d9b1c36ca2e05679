"""A script with more calls in it that change nothing: `events` and `assign` after each change of a
set, and a `read` of each running set every N occurrences.

A run is cut into several. So one sees what a set counted in between, and where thresholds were
passed.
"""

from __future__ import annotations

from dataclasses import dataclass, field
from typing import Sequence

from parts.command import Fault
from parts.report.replies import Step

MOST_CALLS = 100_000  # of a script
READINGS = 240  # of a thread, if no distance is given
CHANGES = ("add", "remove")


@dataclass
class Probe:
    """The lines of a script, and for each the line of the call that it stands for, or none for one
    that was put in."""

    lines: list[str] = field(default_factory=list)
    origins: list[int | None] = field(default_factory=list)
    asks: bool = True  # for the events of each set and their counters

    def put(self, line: str, origin: int | None = None) -> None:
        self.lines.append(line)
        self.origins.append(origin)


def consumed_by_thread(steps: Sequence[Step]) -> dict[int, int]:
    """How many occurrences each thread consumed. Threads without a line are left out."""
    totals: dict[int, int] = {}
    for step in steps:
        totals[step.call.thread] = totals.get(step.call.thread, 0) + step.consumed
    return totals


def probe_of(steps: Sequence[Step], every: int | None) -> Probe:
    """The script of these steps with readings every n occurrences, or about READINGS of each
    thread. Without room for them it is the script as it is."""
    if every is not None:
        probe = _Making(dict.fromkeys(consumed_by_thread(steps), every)).made_of(steps)
        if len(probe.lines) > MOST_CALLS:
            raise Fault(
                f"--every {every}: the script with the readings has {len(probe.lines):,} calls, "
                f"and at most {MOST_CALLS:,} are read"
            )
        return probe
    distances = {
        thread: max(1, -(-total // READINGS)) for thread, total in consumed_by_thread(steps).items()
    }
    while True:
        probe = _Making(distances).made_of(steps)
        if len(probe.lines) <= MOST_CALLS:
            return probe
        if all(
            distance > total
            for distance, total in zip(distances.values(), consumed_by_thread(steps).values())
        ):
            return _as_it_is(steps)
        distances = {thread: 2 * distance for thread, distance in distances.items()}


def _text(step: Step) -> str:
    return " ".join((str(step.call.thread), step.call.name, *step.call.arguments))


def _as_it_is(steps: Sequence[Step]) -> Probe:
    probe = Probe(asks=False)
    for step in steps:
        probe.put(_text(step), step.call.line)
    return probe


class _Making:
    """Follows which sets run and how far each thread is, and puts in what is to be asked."""

    def __init__(self, distances: dict[int, int]):
        self.distances = distances
        self.probe = Probe()
        self.positions: dict[int, int] = {}
        self.running: dict[int, list[int]] = {}
        self.in_turns: set[tuple[int, int]] = set()

    def made_of(self, steps: Sequence[Step]) -> Probe:
        for step in steps:
            if step.call.name == "run":
                self._cut(step)
            else:
                self.probe.put(_text(step), step.call.line)
            if step.is_done and step.set is not None:
                self._follow(step, step.call.thread, step.set)
        return self.probe

    def _follow(self, step: Step, thread: int, number: int) -> None:
        name = step.call.name
        running = self.running.setdefault(thread, [])
        if name == "start":
            running.append(number)
        elif name == "stop":
            running.remove(number)
        elif name == "multiplex":
            self.in_turns.add((thread, number))
        elif name in ("cleanup", "create"):
            self.in_turns.discard((thread, number))
        if name in CHANGES:
            self.probe.put(f"{thread} events {number}")
            if (thread, number) not in self.in_turns:
                self.probe.put(f"{thread} assign {number}")

    def _cut(self, step: Step) -> None:
        """Cuts a run at the multiples of the distance. The last piece asks for all that is left, so
        it meets the end that the run met."""
        thread, asked, consumed = step.call.thread, int(step.call.arguments[0]), step.consumed
        running = self.running.get(thread, [])
        position = self.positions.get(thread, 0)
        end = position + consumed
        self.positions[thread] = end
        distance = self.distances[thread]
        origin: int | None = step.call.line
        while running and end - position > distance - position % distance:
            piece = distance - position % distance
            self.probe.put(f"{thread} run {piece}", origin)
            self._read(thread, running)
            position, asked, origin = position + piece, asked - piece, None
        self.probe.put(f"{thread} run {asked}", origin)
        self._read(thread, running)

    def _read(self, thread: int, running: list[int]) -> None:
        for number in running:
            self.probe.put(f"{thread} read {number}")
