"""Whose turn it is in a multiplexed set: groups take turns of a slice of ticks from where the count
begins (docs/FORMATS.md, What the calls do)."""

from __future__ import annotations

from array import array
from bisect import bisect_left
from dataclasses import dataclass
from typing import Sequence

from parts.command import Fault
from parts.report.story import Span

WITH_STAMPS = b"version 2"
STAMP = 6  # the place of this field


@dataclass(frozen=True)
class Turn:
    """A stretch of occurrences in which a group counts."""

    group: int
    start: int
    end: int


class Clock:
    """The ticks of a thread: one above the stamp of the last occurrence. Without stamps the
    position is the time."""

    def __init__(self, stamps: Sequence[int] | None = None):
        self.stamps = stamps

    def at(self, position: int) -> int:
        if self.stamps is None or position == 0:
            return position
        return self.stamps[min(position, len(self.stamps)) - 1] + 1

    def position(self, tick: int) -> int:
        """How many occurrences came before this tick."""
        return tick if self.stamps is None else bisect_left(self.stamps, tick)


def clock_of(stream: str | None) -> Clock:
    """The clock of a stream that the program took."""
    if stream is None:
        return Clock()
    try:
        with open(stream, "rb") as file:
            if file.readline().rstrip(b"\r\n") != WITH_STAMPS:
                return Clock()
            stamps = array("Q")
            for line in file:
                fields = line.split(b" ")
                if not line.startswith(b"#") and len(fields) > STAMP:
                    stamps.append(int(fields[STAMP]))
    except OSError as error:
        raise Fault(f"{stream}: {error.strerror}") from None
    except ValueError:
        pass  # the program says which line is at fault, and counts what stands before it
    return Clock(stamps)


def turns_of(span: Span, groups: int, clock: Clock, most: int) -> list[Turn] | None:
    """The turns of a span, or none if there are more than `most`."""
    starts = [span.start, *span.zeroed]
    turns: list[Turn] = []
    for start, end in zip(starts, [*starts[1:], span.end]):
        first, slice_ = clock.at(start), span.setup.slice
        count = -(-(clock.at(end) - first) // slice_)
        if len(turns) + count > most:
            return None
        edges = [clock.position(first + number * slice_) for number in range(count)] + [end]
        turns += [
            Turn(number % groups, edges[number], edges[number + 1]) for number in range(count)
            if edges[number] < edges[number + 1]
        ]
    return turns
