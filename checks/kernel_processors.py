"""The kernels over each processor's unit: its recording, its events and PAPI's presets."""

from __future__ import annotations

from pathlib import Path
from typing import Callable, Sequence

from kernel_events import Judged, judge_events, make_unit
from kernel_files import ELEMENTS, MISSES, NAMES, Kernel
from kernel_presets import PRESETS, has_presets, judge_presets, with_others

from parts.codes import codes_of
from parts.command import counted
from parts.processors import Table, tables
from running import Tally

Counts = dict[str, dict[str, int]]  # of each kernel by a line's code
MOST_OPTIMISED = 2  # Valgrind's level by itself, and the most
Recorder = Callable[[str, int], Counts]  # over a unit, at a level of optimisation
RECORDED = {*NAMES.values(), *MISSES.values(), *ELEMENTS.values()}


def judge_lines(title: str, unit: str, kernels: list[Kernel], found: Counts, tally: Tally) -> None:
    """Each line of a recording over the unit, beside the kernel's numbers and its return."""
    lines = [
        (kind, f"{select:02x} {mask:02x}")
        for kind, codes in codes_of(unit).lines
        for select, mask in codes
        if kind in RECORDED
    ]
    for kernel in kernels:
        wanted = kernel.wanted()
        for kind in ("instructions", "loads", "returns"):
            wanted[kind] += 1
        wrong = [
            f"{found[kernel.name].get(code, 0):,} {kind} for {wanted[kind]:,}"
            for kind, code in lines
            if kind in wanted and found[kernel.name].get(code, 0) != wanted[kind]
        ]
        tally.judge(f"{title}: {kernel.name}", ", ".join(wrong))


def judge_all(title: str, judged: Judged, tally: Tally) -> None:
    for name, wrong in judged.wrong.items():
        untried = "no kernel has any of it" if judged.untried.get(name) == "?" else ""
        tally.judge(f"{title}: {name}", wrong or untried)


def told(judged: Judged, kind: str) -> str:
    """How many were tried, and why others are not."""
    whys: dict[str, list[str]] = {}
    for name, why in judged.untried.items():
        whys.setdefault(why, []).append(name)
    tried = f"{len(judged.wrong) - len(judged.untried)} of {counted(len(judged.wrong), kind)} tried"
    return "; ".join([tried, *(f"{why}: {', '.join(names)}" for why, names in whys.items())])


def compare_processors(
    pmus: list[str],
    kernels: list[Kernel],
    folder: Path,
    recorder: Recorder,
    levels: Sequence[int],
    tally: Tally,
) -> None:
    recorded: list[Table] = []  # one unit of each table
    presets = with_others(folder) if PRESETS.exists() else ""
    for pmu in pmus:
        unit = make_unit(pmu, folder)
        if tables()[pmu] not in recorded:
            recorded.append(tables()[pmu])
            for level in levels:
                title = f"recorded over {pmu}, optimisation {level}"
                judge_lines(title, unit, kernels, recorder(unit, level), tally)
        judged = judge_events(pmu, unit, kernels)
        judge_all(pmu, judged, tally)
        print(f"{pmu}: {told(judged, 'event')}", flush=True)
        if not presets or not has_presets(pmu):
            print(f"{pmu}: no presets: {PRESETS} has none for it", flush=True)
            continue
        judged = judge_presets(pmu, unit, presets, kernels)
        judge_all(f"{pmu}, preset", judged, tally)
        print(f"{pmu}: {told(judged, 'preset')}", flush=True)
