"""The built program as `disk`, `words` and `faults` run it, and what docs/FORMATS.md says of the
lines and the status of a run."""

from __future__ import annotations

import argparse
import os
import re
import signal
import subprocess
import sys
import time
from contextlib import suppress
from dataclasses import dataclass
from pathlib import Path
from typing import Callable, Union

from here import ROOT

from formats.causes import one_of

EXAMPLES = ROOT / "examples"
PROGRAM = ROOT / "crates/papi/out/papi"
SECONDS = 10
PATIENCE = 30
LOOKS = 20  # at whether processes have work
Word = Union[str, bytes]

# tools/make_tools: begin
# The tools, each with an example that reads all kinds of files that the tool reads.
EXAMPLE_OF = {
    "papi_run": "presets",
    "papi_profil": "profil",
    "papi_regions": "regions_presets",
    "papi_avail": "avail_all",
    "papi_native_avail": "native_avail_all",
    "papi_event_chooser": "event_chooser_presets",
    "papi_decode": "decode_available",
    "papi_encode": "encode_names",
    "papi_soak": "soak",
}
TOOLS = tuple(EXAMPLE_OF)

# Those that run a script over streams.
RUNNING = ("papi_run", "papi_profil", "papi_regions")
# tools/make_tools: end

LIMITS = (ROOT / "crates/papi_base/src/limits.rt").read_text(encoding="utf-8")
MOST_SETS = int(re.findall(r"MOST_SETS: usize = ([0-9_]+);", LIMITS)[0])

WHOLE, NO, REFUSED, READ_FAULT, MEMORY, WRITE_FAULT = range(6)
BAD_WORDS = b"papi: bad words\n"


@dataclass(frozen=True)
class Run:
    """What a run ended with and wrote. A status below 0 is a signal's number, and none says that
    the run did not end in time."""

    status: int | None
    out: bytes
    err: bytes


@dataclass(frozen=True)
class Example:
    """Words over the files of a folder, as those of examples/, and what the program writes and ends
    with."""

    words: tuple[str, ...]
    wanted: Run
    folder: Path = EXAMPLES

    @classmethod
    def named(cls, name: str) -> Example:
        def text(ending: str) -> bytes:
            path = EXAMPLES / f"{name}.{ending}"
            return path.read_bytes() if path.exists() else b""

        return cls(
            tuple(text("words").decode().splitlines()),
            Run(int(text("status") or 0), text("expected"), text("errors")),
        )


def held_up(process: int) -> bool:
    """Whether a process has work to do, and has had less than its seconds of a processor, as on a
    machine with much other work."""
    states, ticks = set(), 0
    for file in Path(f"/proc/{process}/task").glob("*/stat"):
        fields = file.read_text().rpartition(")")[2].split()
        states.add(fields[0])
        ticks += int(fields[11]) + int(fields[12])
    return bool(states & {"R", "D"}) and ticks < SECONDS * os.sysconf("SC_CLK_TCK")


def processor_of(session: int) -> tuple[float, bool]:
    """The seconds of a processor that the processes of a session took, and whether one of them has
    work to do now."""
    ticks, has_work = 0, False
    for path in Path("/proc").glob("[0-9]*/stat"):
        with suppress(OSError):
            state, _, _, its_session, *more = (
                path.read_text(errors="replace").rpartition(")")[2].split()
            )
            if int(its_session) == session:
                ticks += sum(int(each) for each in more[7:11])
                has_work = has_work or state in "RD"
    return ticks / os.sysconf("SC_CLK_TCK"), has_work


def session_is_held_up(session: int, seconds: float) -> bool:
    """Whether a session has work to do, and has not had so many seconds of a processor, as on a
    machine with much other work."""
    for _ in range(LOOKS):
        taken, has_work = processor_of(session)
        if has_work:
            return taken < seconds
        time.sleep(0.05)
    return False


def communicate(child: subprocess.Popen) -> tuple[bytes | None, bytes | None]:
    """What a process writes up to its end. It has its seconds, and more of them while others hold
    it up."""
    for _ in range(PATIENCE):
        try:
            return child.communicate(timeout=SECONDS)
        except subprocess.TimeoutExpired:
            if not held_up(child.pid):
                break
    raise subprocess.TimeoutExpired(child.args, SECONDS)


class Program:
    """The built program."""

    def __init__(self, path: Path):
        self.path = str(path.absolute())

    def run(self, words: list[Word], folder: Path = EXAMPLES, **how: object) -> Run:
        """A run in a folder. `how` goes to subprocess.Popen; what is written elsewhere than to a
        pipe of this process reads as empty."""
        how = {
            "stdin": subprocess.DEVNULL,
            "stdout": subprocess.PIPE,
            "stderr": subprocess.PIPE,
            **how,
        }
        child = subprocess.Popen([self.path, *words], cwd=folder, start_new_session=True, **how)
        ended_in_time = True
        try:
            out, err = communicate(child)
        except subprocess.TimeoutExpired:
            ended_in_time = False
            os.killpg(child.pid, signal.SIGKILL)
            out, err = child.communicate()
        return Run(child.returncode if ended_in_time else None, out or b"", err or b"")

    def tools(self) -> list[str]:
        """The tools that the program has. Of each other one a line says that it is not there."""
        there = []
        for tool, name in EXAMPLE_OF.items():
            run = self.run(list(Example.named(name).words))
            if run.status == REFUSED and run.err == BAD_WORDS:
                print(f"not there: {tool} refuses the words of its example {name}")
            else:
                there.append(tool)
        return there


class Tally:
    """Counts the runs that passed and failed, and ends with the line `N passed, M failed`."""

    def __init__(self) -> None:
        self.passed = 0
        self.failed = 0

    def judge(self, name: str, why: str) -> bool:
        """Counts a run. `why` is empty if it passed."""
        self.passed += not why
        self.failed += bool(why)
        if why:
            print(f"FAILED  {name}: {why}", flush=True)
        return not why

    def end(self) -> None:
        print(f"{self.passed} passed, {self.failed} failed", flush=True)
        sys.exit(1 if self.failed or not self.passed else 0)


def ended(run: Run) -> str:
    """How a run ended, in words."""
    if run.status is None:
        return f"no end in {SECONDS} seconds"
    return f"ended by signal {-run.status}" if run.status < 0 else f"status {run.status}"


def shown(text: bytes) -> str:
    """The beginning of what was written, on one line."""
    return repr(text[:200])[1:] + (
        f" and {len(text) - 200:,} bytes more" if len(text) > 200 else ""
    )


def differs(run: Run, wanted: Run) -> str:
    """What a run has otherwise than is wanted, or nothing."""
    said = []
    if run.status != wanted.status:
        said.append(f"{ended(run)}, and {wanted.status} is wanted")
    for output, have, want in (("output", run.out, wanted.out), ("error", run.err, wanted.err)):
        if have != want:
            said.append(f"standard {output} {shown(have)}, and {shown(want)} is wanted")
    return "; ".join(said)


# The lines that end a call, each with its status. NAME is the end of a word, since an option and
# its value may be one word.
ENDINGS = [
    (rf"papi: bad words\n", REFUSED),
    (rf"papi: no such file: (?P<name>.*)\n", REFUSED),
    (rf"papi: cannot read: (?P<name>.*)\n", READ_FAULT),
    (rf"papi: (?P<name>.*): too large\n", REFUSED),
    (rf"papi: (?P<name>.*): row [1-9][0-9]*: {one_of('unit', 'presets', 'map')}\n", REFUSED),
    (rf"papi: (?P<name>.*): line [1-9][0-9]*: {one_of('script', 'regions')}\n", REFUSED),
]
STREAM_LINE = (
    rf"papi: stream ([0-9]|[1-5][0-9]|6[0-3]): (?:line [1-9][0-9]*: {one_of('stream')}|(read "
    r"failed))\n"
)


def _ending(err: bytes, words: list[Word]) -> int | None:
    """The status of the line that ended a call, or None if this is not such a line."""
    for pattern, status in ENDINGS:
        match = re.fullmatch(pattern.encode(), err, re.DOTALL)
        if match:
            name = match.groupdict().get("name")
            if name is None or any(os.fsencode(word).endswith(name) for word in words):
                return status
    return None


def _stream_status(err: bytes) -> int | None:
    """The status of the lines after the runs, or none if these are other lines, or not in the order
    of the threads."""
    if not re.fullmatch(rf"(?:{STREAM_LINE})+".encode(), err):
        return None
    lines = re.findall(STREAM_LINE.encode(), err)
    threads = [int(thread) for thread, _ in lines]
    if threads != sorted(set(threads)):
        return None
    return READ_FAULT if any(failed for _, failed in lines) else REFUSED


def wrong(run: Run, words: list[Word]) -> str:
    """What in the status and the lines of a run with ample memory and outputs that take all is not
    as docs/FORMATS.md has it."""
    if run.status not in (WHOLE, NO, REFUSED, READ_FAULT):
        return ended(run)
    if not run.err:
        return "" if run.status in (WHOLE, NO) else f"{ended(run)} without a line on standard error"
    status = _ending(run.err, words)
    if status is not None and run.out:
        return f"standard error {shown(run.err)}, and an output all the same"
    if status is None:
        status = _stream_status(run.err)
    if status is None:
        return f"standard error {shown(run.err)}"
    return "" if status == run.status else f"{ended(run)} with standard error {shown(run.err)}"


def usual_program() -> Path:
    """The proved program if it is built, or else the same code unproved, which is compiled if it is
    not kept."""
    if os.access(PROGRAM, os.X_OK):
        return PROGRAM
    found = subprocess.run(
        [str(ROOT / "bin/papi"), "--compile"], stdin=subprocess.DEVNULL, stdout=subprocess.PIPE,
        text=True,
    )
    return PROGRAM if found.returncode else Path(found.stdout.rstrip("\n"))


def check_program(
    name: str, about: str, work: Callable[[argparse.Namespace, Program], Tally], *options: tuple
) -> None:
    """Reads the words of a check, and does it over the program that they name."""
    parser = argparse.ArgumentParser(prog=name, description=about)
    parser.add_argument(
        "program", metavar="PROGRAM", nargs="?", type=Path,
        help="the program (crates/papi/out/papi, or the same code unproved)",
    )
    for option, how in options:
        parser.add_argument(option, **how)
    words = parser.parse_args()
    words.program = words.program or usual_program()
    if not os.access(words.program, os.X_OK):
        print(f"{name}: {words.program} is not built (cd crates/papi && rt run -- papi_soak 1)")
        print("0 passed, 1 failed")
        sys.exit(1)
    try:
        work(words, Program(words.program)).end()
    except KeyboardInterrupt:
        sys.exit(130)
