"""PAPI's own C tests: built out of a folder with PAPI's source, and run without arguments by
tools/count, with what an installation has. For `papi_programs`."""

from __future__ import annotations

import re
import subprocess
from concurrent.futures import ThreadPoolExecutor
from dataclasses import dataclass
from pathlib import Path
from time import monotonic

from here import CHECKS
from papi_library import Ran, run

EXPECTED = CHECKS / "papi_ctests.expected"
SECONDS = 600
WORKERS = 2
FLAGS = ["-w", "-O1", "-fopenmp", "-no-pie"]
ENDING = ["-lpthread", "-lm", "-ldl"]

# What the tests are linked with, below the source's folder. Those with a `main` of their own are no
# part of it.
SUPPORT = ["testlib/test_utils.c", "testlib/do_loops.c", "testlib/clockcore.c"]
SUPPORT += [
    f"validation_tests/{name}.c"
    for name in (
        "flops_testcode", "instructions_testcode", "busy_work", "display_error", "cache_helper",
        "branches_testcode", "cache_testcode", "matrix_multiply",
    )
]
PROFILING = "prof_utils"

PASS, SKIP, FAIL, UNBUILT = "pass", "skip", "fail", "not built"


@dataclass(frozen=True)
class Result:
    name: str
    verdict: str
    seconds: float
    why: str

    def row(self) -> str:
        return f"{self.name:<28} {self.verdict:<10} {self.seconds:6.1f}  {self.why}".rstrip()


def expectations() -> dict[str, tuple[str, str]]:
    """The tests that are not expected to pass: how each ends, and why."""
    rows = [
        line.split(None, 2) for line in EXPECTED.read_text().splitlines()
        if line and not line.startswith("#")
    ]
    return {
        name: ("not built" if verdict == "unbuilt" else verdict, why) for name, verdict, why in rows
    }


def verdict_of(ran: Ran) -> tuple[str, str]:
    """What a test says of itself: its last line has PASSED, SKIPPED or FAILED. One that says
    nothing passes with status 0."""
    text = re.sub(r"\x1b\[[0-9;]*m", "", ran.out)
    if ran.status is None or ran.status < 0:
        return FAIL, ran.how
    failed = re.search(r"FAILED.*|^.*FAILED.*$", text, re.MULTILINE)
    if failed or ran.status:
        lines = [line.strip() for line in text.splitlines() if line.strip()]
        said = (
            [line for line in lines if "Error" in line or "FAILED" in line or "Line #" in line]
            or lines[-1:] or [ran.how]
        )
        return FAIL, " / ".join(said[-3:])[:160]
    if "SKIPPED" in text:
        lines = [line.strip() for line in text.splitlines() if line.strip()]
        return SKIP, " / ".join(lines[-2:])[:160]
    return PASS, ""


class Tests:
    """The tests of a source folder, built into another folder. The runner's words come before the
    program's."""

    def __init__(
        self, source: Path, folder: Path, compiler: str, words: list[str], runner: list[object]
    ):
        self.source = source
        self.folder = folder
        self.compiler = compiler
        self.words = words
        self.runner = runner
        self.includes = [f"-I{source / part}" for part in ("testlib", "validation_tests")]
        self.archive = folder / "libsupport.a"

    def names(self) -> list[str]:
        return sorted(
            file.stem for file in (self.source / "ctests").glob("*.c") if file.stem != PROFILING
        )

    def _compile(self, words: list[object]) -> str:
        """Calls the compiler, and gives the first line that has an error, or nothing."""
        done = subprocess.run(
            [self.compiler, *FLAGS, *map(str, words)], capture_output=True, text=True
        )
        if done.returncode == 0:
            return ""
        lines = done.stderr.splitlines() or ["the compiler says nothing"]
        return next((line for line in lines if "error" in line or "undefined" in line), lines[0])

    def build_support(self) -> str:
        objects = []
        headers = [word for word in self.words if word.startswith("-I")]
        for part in SUPPORT:
            target = self.folder / (Path(part).stem + ".o")
            why = self._compile([*headers, *self.includes, "-c", self.source / part, "-o", target])
            if why:
                return f"{part}: {why}"
            objects.append(target)
        done = subprocess.run(
            ["ar", "rc", str(self.archive), *map(str, objects)], capture_output=True, text=True
        )
        return done.stderr.strip()

    def build(self, name: str) -> str:
        """Builds a test, and says why it is not built, or nothing."""
        file = self.source / f"ctests/{name}.c"
        more = (
            [self.source / f"ctests/{PROFILING}.c"]
            if f'"{PROFILING}.h"' in file.read_text(errors="replace") else []
        )
        return self._compile(
            [
                *self.words[:1], *self.includes, file, *more, self.archive, *self.words[1:],
                *ENDING, "-o", self.folder / name,
            ]
        )

    def run(self, name: str) -> Result:
        began = monotonic()
        ran = run([*self.runner, self.folder / name], {}, SECONDS, self.folder)
        verdict, why = verdict_of(ran)
        return Result(name, verdict, monotonic() - began, why)


def try_tests(tests: Tests, names: list[str]) -> list[Result]:
    """Builds and runs these tests, in their order."""

    def one(name: str) -> Result:
        why = tests.build(name)
        return Result(name, UNBUILT, 0, why[:160]) if why else tests.run(name)

    with ThreadPoolExecutor(WORKERS) as workers:
        return list(workers.map(one, names))


def print_results(results: list[Result]) -> None:
    for result in results:
        print(result.row())
    built = sum(result.verdict != UNBUILT for result in results)
    counts = ", ".join(f"{sum(r.verdict == v for r in results)} {v}" for v in (PASS, SKIP, FAIL))
    print(f"{built} of {len(results)} built: {counts}", flush=True)
