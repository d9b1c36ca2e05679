"""Counts of a whole program as a table to read: a line for each event, with a ratio where one is
usual, and then the threads and processes if there are several."""

from __future__ import annotations

import shlex
from dataclasses import dataclass
from typing import Sequence

from formats.texts import plain
from parts.whole_counts import Counts, WholeCounts

ACCESSES = ("PAPI_LD_INS", "PAPI_SR_INS")
INSTRUCTIONS = ("PAPI_TOT_INS",)
VALUE_WIDTH, NAME_WIDTH = 20, 24


@dataclass(frozen=True)
class Ratio:
    """An event over the sum of others."""

    of: tuple[str, ...]
    text: str
    factor: int = 1


PER_INSTRUCTION = Ratio(INSTRUCTIONS, "per instruction")
PER_ACCESS = Ratio(ACCESSES, "% of loads and stores", 100)
PER_THOUSAND = Ratio(INSTRUCTIONS, "per 1,000 instructions", 1000)
PER_BRANCH = Ratio(("PAPI_BR_CN",), "% of conditional branches", 100)
# The first one that can be told is.
RATIOS: dict[str, tuple[Ratio, ...]] = {
    **{
        f"PAPI_{name}": (PER_INSTRUCTION,)
        for name in ("TOT_CYC", "LD_INS", "SR_INS", "LST_INS", "BR_INS", "FP_OPS", "RES_STL")
    },
    "PAPI_L1_DCM": (
        PER_ACCESS,
        Ratio(("PAPI_LST_INS",), "% of loads and stores", 100),
        PER_THOUSAND,
    ),
    "PAPI_L1_LDM": (Ratio(("PAPI_LD_INS",), "% of loads", 100), PER_THOUSAND),
    "PAPI_L1_STM": (Ratio(("PAPI_SR_INS",), "% of stores", 100), PER_THOUSAND),
    "PAPI_L2_DCM": (Ratio(("PAPI_L1_DCM",), "% of the first level's", 100), PER_THOUSAND),
    "PAPI_BR_MSP": (PER_BRANCH, Ratio(("PAPI_BR_INS",), "% of branches", 100), PER_THOUSAND),
    **{
        f"PAPI_{name}": (PER_THOUSAND,)
        for name in ("L1_ICM", "L1_TCM", "L2_ICM", "L2_TCM", "L3_TCM", "TLB_DM", "TLB_IM")
    },
}


def _ratio(event: str, counts: Counts) -> str:
    for ratio in RATIOS.get(event, ()):
        if (
            all(name in counts for name in ratio.of)
            and (whole := sum(counts[name] for name in ratio.of)) > 0
        ):
            return f"{ratio.factor * counts[event] / whole:10.2f} {ratio.text}"
    return ""


def _lines(events: Sequence[str], counts: Counts) -> list[str]:
    width = max(NAME_WIDTH, *map(len, events))
    return [
        f"{counts[event]:>{VALUE_WIDTH},}      {event:<{width}}{_ratio(event, counts)}".rstrip()
        for event in events
    ]


def _columns(title: str, events: Sequence[str], rows: Sequence[tuple[str, Counts]]) -> list[str]:
    """A line for each thread or process."""
    first = max(len(name) for name, _ in [*rows, (title, {})])
    widths = [
        max(len(event), *(len(f"{counts[event]:,}") for _, counts in rows)) for event in events
    ]
    head = "  ".join(event.rjust(width) for event, width in zip(events, widths))
    lines = [
        "  ".join(
            [
                name.ljust(first),
                *(f"{counts[event]:,}".rjust(width) for event, width in zip(events, widths)),
            ]
        )
        for name, counts in rows
    ]
    return [f" {title.ljust(first)}  {head}", *(f" {line}" for line in lines)]


def table(counts: WholeCounts) -> str:
    inside = f" in calls of {', '.join(map(plain, counts.functions))}" if counts.functions else ""
    lines = [
        "",
        f" Counts of {plain(shlex.join(counts.command))}{inside}:",
        "",
        *_lines(counts.events, counts.total),
        "",
    ]
    if len(counts.processes) > 1:
        rows = [
            (f"{process.number} {plain(process.program)}", process.total)
            for process in counts.processes
        ]
        lines += [*_columns("process", counts.events, [*rows, ("all", counts.total)]), ""]
    for process in counts.processes:
        if len(process.threads) > 1:
            title = (
                "thread" if len(counts.processes) == 1 else f"thread of process {process.number}"
            )
            rows = [(str(thread.number), thread.counts) for thread in process.threads]
            lines += [*_columns(title, counts.events, [*rows, ("all", process.total)]), ""]
    return "".join(f"{line}\n" for line in lines)
