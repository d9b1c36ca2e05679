"""A sweep over the slices of a multiplexed set: what it estimates, beside the exact count.

The stream is a loop of 400 occurrences, in which branches and mispredictions take turns. In its first half a branch counts 9, in its second half 1. Both events want
the same counter, so a multiplexed set counts each in half of the time, and scales.
"""

from __future__ import annotations

import tempfile
from pathlib import Path

import kistalub

UNIT = "examples/lab.unit"
BRANCH, MISPREDICTION = "0 c4 01 u {} 400100\n", "0 c5 00 u 1 400104\n"
LOOPS = 50
SLICES = (1, 2, 5, 10, 20, 50, 100, 150, 200, 250, 300, 400, 500, 600, 1000, 2000, 5000, 10000)  # ticks, of which each is an occurrence
HALF_WIDTH = 20  # characters of the plot to each side, for an error of 100 %


def write_stream(path: Path) -> None:
    busy, calm = BRANCH.format(9) + MISPREDICTION, BRANCH.format(1) + MISPREDICTION
    path.write_text((busy * 100 + calm * 100) * LOOPS, encoding="ascii")


def exact(stream: Path, event: str) -> int:
    """The count of an event that has the counter for itself."""
    with kistalub.Library(UNIT, stream=stream), kistalub.EventSet(event) as events:
        with events.counting() as counts:
            kistalub.go()
    return counts[event]


def estimate(stream: Path, event: str, other: str, slice_ns: int) -> int:
    """What a multiplexed set of two events says of the first."""
    with kistalub.Library(UNIT, stream=stream), kistalub.EventSet(event, other, multiplexed=True, slice_ns=slice_ns) as events:
        with events.counting() as counts:
            kistalub.go()
    return counts[event]


def plotted(error: float) -> str:
    """A mark to the left of the middle for an estimate that is too small, to the right for one that is too large."""
    places = ["."] * (2 * HALF_WIDTH + 1)
    places[HALF_WIDTH] = "|"
    places[HALF_WIDTH + round(error / 100 * HALF_WIDTH)] = "#"
    return "".join(places)


def main() -> None:
    with tempfile.TemporaryDirectory() as folder:
        stream = Path(folder) / "loop.stream"
        write_stream(stream)
        true_count = exact(stream, "BR_INST")
        print(f"BR_INST: exactly {true_count:,}\nslice estimate   error")
        for ticks in SLICES:
            value = estimate(stream, "BR_INST", "BR_MISP", ticks)
            error = 100 * (value - true_count) / true_count
            print(f"{ticks:5} {value:8,} {error:+6.1f} % {plotted(error)}")


main()
