"""A program with a named range, "smooth": rounds.py N."""

from __future__ import annotations

import sys

import kistalub


def smooth(cells: list[float], rounds: int) -> None:
    for _ in range(rounds):
        for i in range(1, len(cells) - 1):
            cells[i] = (cells[i - 1] + cells[i] + cells[i + 1]) / 3


cells = [0.0] * 256
cells[128] = 1.0
with kistalub.region("smooth"):
    smooth(cells, int(sys.argv[1]) if len(sys.argv) > 1 else 100)
assert cells[1] < 1
