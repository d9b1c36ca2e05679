"""The programs of examples/c as tests of a change in c/: which of them run which lines, as gcov
says, and what they say of a changed library. What runs under tools/count alone meets the tests of
that tool."""

from __future__ import annotations

import json
import re
import resource
import shutil
import subprocess
import sys
from dataclasses import dataclass, field
from pathlib import Path
from typing import Callable, Mapping

from seen_lines import Seen, end_of

CHECK = "examples/c/check"
# that the check tries beside its programs
OTHERS = ("forks", "fork_locks", "one_stream", "openmp", "cxx", "fortran", "counted", "scripts")
COUNTED = ("tests.test_count", "tests.test_thresholds")  # of tools/count, in tools/
DRAWN = 100  # scripts
DRAWN_SANITIZED = 20
Run = Callable[[list[str], Mapping[str, str]], "bool | None"]


@dataclass
class Programs:
    """The programs with the lines of c/ that each runs. `kept` is a folder for what stays the same
    from one change to the next."""

    kept: Path
    names: list[str]
    seen: Seen = field(default_factory=Seen)
    lines: set[tuple[str, int]] = field(default_factory=set)  # that have code
    environment: dict[str, str] = field(default_factory=dict)
    seconds: float = 0.0  # of a processor, that all take
    with_sanitizers: bool = True
    with_counted: bool = True

    @classmethod
    def made(cls, top: Path, kept: Path, run: Run) -> Programs | None:
        """Those that pass as they are, or None if not all do."""
        found = re.search(
            r"^programs='([^']*)'", (top / CHECK).read_text(encoding="utf-8"), re.MULTILINE
        )
        assert found
        kept.mkdir()
        programs = cls(kept, [*found[1].split(), *OTHERS])
        programs.environment = {"KEPT": str(kept), **_compiler(kept)}
        before = sum(resource.getrusage(resource.RUSAGE_CHILDREN)[:2])
        if not programs.passes(run, programs.names):
            return None
        programs.seconds = sum(resource.getrusage(resource.RUSAGE_CHILDREN)[:2]) - before
        if not programs.passes(run, programs.names, "--sanitize"):
            print("left out: c: the sanitizers, with which not all programs pass here", flush=True)
            programs.with_sanitizers = False
        if not programs.counted_pass(run):
            print("left out: c: the tests of tools/count, which do not pass here", flush=True)
            programs.with_counted = False
        with_gcov = kept / "seen"
        (with_gcov / "notes").mkdir(parents=True)
        flags = f"-O0 --coverage -fprofile-update=atomic -dumpdir {with_gcov}/notes/"
        run(
            [CHECK],
            {
                "ONLY": " ".join(programs.names),
                "DRAWN": str(DRAWN),
                "SEEN": str(with_gcov),
                "CFLAGS": flags,
            },
        )
        for name in programs.names:
            programs.seen.tests[name] = programs._seen_by(with_gcov / name, with_gcov / "notes")
        return programs

    def _seen_by(self, folder: Path, notes: Path) -> set[tuple[str, int]]:
        """The lines that a program ran. One that leaves no word may have run any."""
        place = Path(f"{folder}{notes}")
        files = [path.name for path in place.glob("kl_*.gcda")] if place.is_dir() else []
        if not files:
            return {("", 0)}
        for path in notes.glob("*.gcno"):
            (place / path.name).symlink_to(path)
        told = subprocess.run(
            ["gcov", "--json-format", "--stdout", *files], cwd=place, stdout=subprocess.PIPE,
            stderr=subprocess.DEVNULL, check=True,
        )
        rows = [
            (end_of(file["file"]), line["line_number"], line["count"])
            for each in told.stdout.splitlines() for file in json.loads(each)["files"]
            for line in file["lines"]
        ]
        self.lines |= {(file, line) for file, line, _ in rows}
        return {(file, line) for file, line, count in rows if count}

    def near(self, file: str, line: int) -> list[str]:
        """The programs that run a line, or that run anything of its file if it has no code."""
        place = (end_of(file), line)
        is_code = place in self.lines
        return [
            name
            for name in self.names
            if any(
                row in (place, ("", 0)) or not is_code and row[0] == place[0]
                for row in self.seen.tests[name]
            )
        ]

    def passes(self, run: Run, names: list[str], *words: str) -> bool | None:
        drawn = DRAWN_SANITIZED if words else DRAWN
        return run(
            [CHECK, *words], {**self.environment, "ONLY": " ".join(names), "DRAWN": str(drawn)}
        )

    def counted_pass(self, run: Run) -> bool | None:
        return run(
            [sys.executable, "-B", "-m", "unittest", "-q", "-f", *COUNTED],
            {**self.environment, "PYTHONPATH": "tools"},
        )

    def see(self, run: Run, file: str, line: int) -> tuple[bool, bool]:
        """Whether they see nothing of a change in this line, as they are and with the compiler's
        sanitizers, and whether they ran past their time. What none of them runs, and the files that
        talk with the tool of Valgrind, meet the tests of tools/count."""
        names = self.near(file, line)
        passes: bool | None = True
        if self.with_counted and (not names or file.startswith("c/live")):
            passes = self.counted_pass(run)
        if passes and names:
            passes = self.passes(run, names)
        if passes and names and self.with_sanitizers:
            passes = self.passes(run, names, "--sanitize")
        return bool(passes), passes is None


def _compiler(kept: Path) -> dict[str, str]:
    """A compiler that keeps what it has made, if there is ccache."""
    if not shutil.which("ccache"):
        return {}
    compiler = kept / "compiler"
    compiler.write_text('#!/bin/sh\nexec ccache cc "$@"\n')
    compiler.chmod(0o755)
    return {"CC": str(compiler), "CCACHE_DIR": str(kept / "cache")}
