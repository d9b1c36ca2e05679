"""The unchanged programs of papi-tools by tools/count: each is counted twice, and says the same
both times. For `papi_programs`."""

from __future__ import annotations

import re
from concurrent.futures import ThreadPoolExecutor
from pathlib import Path
from time import monotonic
from typing import Iterator

from here import ROOT
from papi_binaries import PROGRAMS, Case
from papi_library import Library, Ran, run

COUNT = ROOT / "tools/count"
SECONDS = 600
WORKERS = 2
TIMES = 2

# A program has these words, or else those that it has over other units.
WORDS: dict[str, list[str]] = {
    "papi_command_line": ["PAPI_TOT_INS", "PAPI_BR_INS", "PAPI_FP_OPS"],
    "papi_event_chooser": ["PRESET", "PAPI_TOT_INS"],
    "papi_cost": ["-t", "100"],
    "papi_multiplex_cost": ["-t", "100"],
}

# What is plausible: the numbers that a pattern finds in what a program prints or leaves in its
# files, and their least and their most.
PLAUSIBLE: dict[str, list[tuple[str, int, int]]] = {
    "papi_command_line": [(r"^PAPI_\w+ :\s+(\d+)", 10_000, 1_000_000_000)],
    "papi_cost": [(r"^(?:min|max|mean) cycles +: (\d+)", 1, 10_000)],
    "papi_clockres": [
        (r"^PAPI_get_real_cyc: min (\d+)", 1, 100), (r"^PAPI_get_virt_cyc: min (\d+)", 1, 100),
    ],
    "papi_multiplex_cost": [(r"^ +\d+\t +(\d+)\t", 1, 10_000)],
}
# What is said of a program that makes no call of PAPI: it is counted as a whole.
TABLE = " Counts of "
CALL_LESS = {"papi_version": TABLE}


def why_of(name: str, ran: Ran, text: str) -> str:
    """What is wrong with a run, or nothing."""
    if ran.status != 0:
        return f"{ran.how}: {(ran.err or ran.out).strip()[-200:]}"
    wanted = CALL_LESS.get(name, "")
    if wanted not in ran.err or (not wanted and ("count: " in ran.err or TABLE in ran.err)):
        return f"says {ran.err.strip()[-200:]!r}"
    for pattern, least, most in PLAUSIBLE.get(name, []):
        found = [int(number) for number in re.findall(pattern, text, re.MULTILINE)]
        if not found or not all(least <= number <= most for number in found):
            return f"{pattern} finds {found[:10]}, and from {least} to {most} is plausible"
    return ""


def _counted(library: Library, name: str, folder: Path) -> Case:
    """Counts a program so many times, each in a folder of its own."""
    began = monotonic()
    seen = []
    for number in range(TIMES):
        own = folder / f"{name}.{number}"
        own.mkdir()
        ran = run(
            [COUNT, "--library", library.folder, name, *WORDS.get(name, PROGRAMS[name])], {},
            SECONDS, own,
        )
        files = {path.name: path.read_text(errors="replace") for path in sorted(own.iterdir())}
        why = why_of(name, ran, "\n".join([ran.out, *files.values()]))
        if why:
            return Case(name, why)
        seen.append((ran, files))
    print(f"counted {TIMES} times in {monotonic() - began:.0f} seconds: {name}", flush=True)
    return Case(
        name, "" if all(one == seen[0] for one in seen) else "does not say the same each time"
    )


def cases(library: Library, folder: Path) -> Iterator[Case]:
    """Each program of papi-tools over examples/recorded.unit."""
    with ThreadPoolExecutor(WORKERS) as workers:
        yield from workers.map(lambda name: _counted(library, name, folder), PROGRAMS)
