"""PAPI's own tests in C over the library, which is built with the compiler's sanitizers. For
`papi_programs`."""

from __future__ import annotations

import os
import re
import subprocess
from concurrent.futures import ThreadPoolExecutor
from dataclasses import dataclass
from pathlib import Path

from here import ROOT
from papi_ctests import Tests, expectations
from papi_library import Files, Ran, run

SOURCES = ROOT / "c"
SECONDS = 900
# The stored stream happens in steps, and the clock goes on while a test sleeps. What a test makes
# of its counts is not judged here.
ROUNDS = 10
SETTINGS = {
    "KISTALUB_CLOCK": "real",
    "KISTALUB_MHZ": "50",
    "OMP_NUM_THREADS": "2",
    "OMP_WAIT_POLICY": "passive",
}
REPORT = re.compile(
    r"ERROR: \w+Sanitizer|WARNING: ThreadSanitizer|runtime error:|ERROR: LeakSanitizer"
)
FRAME = re.compile(rf"{re.escape(str(SOURCES))}/\w+\.[ch]:\d+")


@dataclass(frozen=True)
class Sanitizer:
    """A kind of sanitizer, and how it is asked for."""

    name: str
    flags: tuple[str, ...]
    options: dict[str, str]


# Threads that a test leaves behind, and what it leaves allocated, are its own.
SANITIZERS = (
    Sanitizer(
        "address", ("-g", "-fsanitize=address,undefined", "-fno-sanitize-recover=undefined"),
        {"ASAN_OPTIONS": "detect_leaks=0"},
    ),
    Sanitizer("thread", ("-g", "-fsanitize=thread"), {"TSAN_OPTIONS": "report_thread_leaks=0"}),
)


def build_library(sanitizer: Sanitizer, folder: Path) -> str:
    """Builds the archive into a folder, and says why it is not built, or nothing."""
    done = subprocess.run(
        [str(ROOT / "c/build"), str(folder)], capture_output=True, text=True,
        env={**os.environ, "CFLAGS": " ".join(sanitizer.flags)},
    )
    return done.stderr.strip()[:300] if done.returncode else ""


def report_of(text: str) -> str:
    """The first report in which a source of the library has a part, or nothing: what a test does
    wrong alone is its own."""
    parts = re.split(rf"(?={REPORT.pattern})", text)
    for part in parts:
        kind, frame = REPORT.match(part), FRAME.search(part)
        if kind and frame:
            return f"{kind[0]} at {Path(frame[0]).name}"
    return ""


def try_sanitized(
    source: Path, folder: Path, compiler: str, files: Files, round_of: int, only: list[str]
) -> list[tuple[str, str]]:
    """Each test that passes otherwise, and what is reported of the library in it, or nothing."""
    cases = []
    for sanitizer in SANITIZERS:
        place = folder / sanitizer.name
        place.mkdir()
        why = build_library(sanitizer, place / "library")
        words = [f"-I{ROOT / 'include'}", str(place / "library/libkistalub.a"), *sanitizer.flags]
        tests = Tests(source, place, compiler, words, [])
        why = why or tests.build_support()
        if why:
            cases.append((f"{sanitizer.name}: the library", why))
            continue
        names = [
            name for name in tests.names()
            if name not in expectations() and (not only or name in only)
        ]

        def one(
            name: str, tests: Tests = tests, sanitizer: Sanitizer = sanitizer
        ) -> tuple[str, str]:
            return f"{sanitizer.name}: {name}", try_one(tests, name, sanitizer, files, round_of)

        with ThreadPoolExecutor(os.cpu_count()) as workers:
            cases += workers.map(one, names)
    return cases


def try_one(tests: Tests, name: str, sanitizer: Sanitizer, files: Files, round_of: int) -> str:
    why = tests.build(name)
    if why:
        return f"not built: {why[:160]}"
    step = {"KISTALUB_STEP": str(ROUNDS * round_of)}
    ran = run(
        [tests.folder / name], {**SETTINGS, **files.environment(), **step, **sanitizer.options},
        SECONDS, tests.folder,
    )
    return report_of(ran.out + ran.err) or ended_in_time(ran)


def ended_in_time(ran: Ran) -> str:
    """Why nothing is known of a test that has no report, or nothing."""
    return f"no report, and {ran.how} ({SECONDS} s)" if ran.status is None else ""
