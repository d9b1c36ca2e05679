"""What the comments of the branch kernels of PAPI's counter analysis toolkit say of each turn, and
the events of processors that count it. For `counter_analysis` and `papi_users`."""

from __future__ import annotations

import re
from pathlib import Path

# By the words of the comments. Of each processor: what an event counts of a branch kernel.
BRANCHES = {
    "icx": {
        "BR_INST_RETIRED:COND": ("RETIRED", "Conditional JUMP"),
        "BR_INST_RETIRED:COND_TAKEN": ("TAKEN",),
        "BR_INST_RETIRED:ALL_BRANCHES": ("All Branches",),
    },
    "amd64_fam19h_zen3": {
        "RETIRED_CONDITIONAL_BRANCH_INSTRUCTIONS": ("RETIRED", "Conditional JUMP"),
        "RETIRED_BRANCH_INSTRUCTIONS": ("All Branches",),
    },
}


def known_branches(text: str) -> dict[str, dict[str, float]]:
    """Of each branch kernel what its comment says, by the words there; in the order in which the
    kernels write."""
    order = re.findall(r"^    BRANCH_BENCH\((\w+)\);", text, re.MULTILINE)
    known: dict[str, dict[str, float]] = {}
    for name in order:
        body = text.partition(f"branch_char_b{name}(int size")[2].partition("iter_count = ")[0]
        row = re.compile(r"^\s*\d\.\s+(.*?)\s*=\s*([\d.]+)\s*$", re.MULTILINE)
        rows = row.findall(body)
        known[name] = {words: float(number) for words, number in rows}
    return known


def number_of(known: dict[str, float], words: tuple[str, ...]) -> float | None:
    return next((known[each] for each in known for word in words if each.endswith(word)), None)


def lines_of(file: Path) -> list[float]:
    return [float(line) for line in file.read_text(encoding="ascii").split()]
