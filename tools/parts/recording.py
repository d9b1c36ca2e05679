"""A recording of a program: a run under our tool of Valgrind (tools/valgrind), which writes the
stream."""

from __future__ import annotations

import os
import shutil
import signal
import subprocess
import sys
from dataclasses import dataclass, field
from pathlib import Path
from typing import IO, Mapping

from parts import valgrind
from parts.codes import RECORDED, Codes
from parts.command import Fault, Progress, heed_signal, uninterrupted
from parts.machine import Machine
from parts.started import ends_with_parent
from parts.symbols import entry_of, read_functions

MOST_BYTES = 67_108_864
FULL_STATUS = 3
THREAD_SIGN = "%t"


@dataclass(frozen=True)
class Wanted:
    """What is recorded of which program, and how."""

    program: str
    arguments: list[str]
    machine: Machine
    symbol: str | None = None  # begin when this function is first entered
    only_calls: bool = False  # between calls of PAPI while a set counts
    is_each: bool = False
    window: int = 65_536
    first_thread: bool = False
    environment: Mapping[str, str] = field(default_factory=dict)
    output: IO[str] | int | None = None
    errors: int | None = None
    source: IO[bytes] | None = None
    # as the system starts it: also what its loader does before the program's entry, and with its
    # random bytes
    is_whole: bool = False
    has_further: bool = False  # totals of what only other tools count
    codes: Codes = RECORDED  # of the lines


@dataclass
class Recorded:
    """What the run told."""

    totals: dict[str, int] = field(default_factory=dict)
    calls: int = 0
    is_from_met: bool = True
    full_at: int | None = None
    second_thread: bool = False
    replaced_by: str | None = None  # the program that this one became
    failure: str | None = None
    refused: str | None = None  # what is said of an instruction that Valgrind does not have
    status: int = 0  # the program's, or the number of a signal below zero

    def sum(self, *names: str) -> int:
        return sum(self.totals.get(name, 0) for name in names)

    def has_ended_early(self) -> bool:
        return (
            self.full_at is not None or self.second_thread or bool(self.failure or self.replaced_by)
        )


def entry_of_symbol(path: str, symbol: str) -> int:
    """The address of a function in the program's file."""
    for function in read_functions(path):
        if function.name == symbol:
            return function.address
    raise Fault(f"{path} has no function {symbol}")


def found_program(name: str) -> str:
    path = shutil.which(name)
    if path is None:
        raise Fault(f"{name}: no such program")
    return path


def record(wanted: Wanted, stream: str | None, label: str) -> Recorded:
    """Records into a file, or into one for each thread, or to standard output. The label stands
    before the line that shows the progress."""
    path = found_program(wanted.program)
    words = _words(wanted, os.path.realpath(path))
    # else a name is looked for while a set counts
    bound = {"LD_BIND_NOW": "1"} if wanted.only_calls else {}
    environment = valgrind.environment([path, *wanted.arguments], {**wanted.environment, **bound})
    valgrind.tool()
    valgrind.check_temporary_folder()
    sys.stdout.flush()
    reader, writer = os.pipe()
    process: subprocess.Popen[bytes] | None = None
    with os.fdopen(reader, encoding="utf-8", errors="replace") as report:
        try:
            try:
                with uninterrupted():
                    process = _start(
                        wanted, [*words, f"--report={writer}"], path, stream, writer, environment
                    )
            finally:
                os.close(writer)
            recorded = _follow(report, label)
            if recorded.has_ended_early():
                process.kill()
            recorded.status = process.wait()
        except BaseException:
            if process is not None:
                process.kill()
                process.wait()
            raise
    if (
        not recorded.totals and not recorded.has_ended_early()
        and recorded.status != -signal.SIGKILL
    ):
        heed_signal(recorded.status)
        raise Fault(f"{wanted.program} can't be run under valgrind (status {recorded.status})")
    return recorded


def _words(wanted: Wanted, path: str) -> list[str]:
    """The tool's words."""
    entry = entry_of(path)
    words = [
        *wanted.machine.tool_words(), f"--counts={'yes' if wanted.has_further else 'no'}",
        "--tape=yes", *wanted.codes.tool_words(), f"--window={wanted.window}",
        f"--entry={entry:#x}",
    ]
    begin = entry_of_symbol(path, wanted.symbol) if wanted.symbol else entry
    words += ["--keep-random=yes"] if wanted.is_whole else [f"--from={begin:#x}"]
    words += ["--stopped=yes"] * wanted.only_calls  # the library starts it while a set counts
    return words + ["--each=yes"] * wanted.is_each + ["--further=yes"] * wanted.has_further


def _start(
    wanted: Wanted, words: list[str], path: str, stream: str | None, report: int,
    environment: dict[str, str],
) -> subprocess.Popen[bytes]:
    """Starts the program, which inherits the descriptors of the report and of the stream. The tool
    hides them from it."""
    each = stream is not None and THREAD_SIGN in stream
    file = (
        os.dup(1)
        if stream is None
        else os.open(
            stream.replace(THREAD_SIGN, "0"), os.O_WRONLY | os.O_CREAT | os.O_TRUNC | os.O_CLOEXEC,
            0o666,
        )
    )
    try:
        words = [
            *words,
            *(
                [f"--streams={stream}"] if each
                else [f"--stream={file}", f"--threads={'first' if wanted.first_thread else 'one'}"]
            ),
        ]
        return subprocess.Popen(
            valgrind.command(["--log-file=/dev/null", *words], path, wanted.arguments),
            pass_fds=[report] + [file] * (not each), stdin=wanted.source, stdout=wanted.output,
            stderr=wanted.errors,
            env=environment, preexec_fn=ends_with_parent(signal.SIGKILL),
        )
    finally:
        os.close(file)


def _follow(report: IO[str], label: str) -> Recorded:
    """Reads what the tool tells until it ends."""
    recorded = Recorded(is_from_met=True)
    progress = Progress(label)
    for line in report:
        take_line(recorded, progress, line.rstrip("\n"))
    progress.close()
    return recorded


def take_line(recorded: Recorded, progress: Progress, line: str) -> None:
    word, _, rest = line.partition(" ")
    if word == "progress":
        progress.show(int(rest))
    elif word == "total":
        name, _, number = rest.partition(" ")
        recorded.totals[name] = int(number)
    elif word == "full":
        recorded.full_at = int(rest, 16)
    elif word == "thread":
        recorded.second_thread = True
    elif word == "exec":
        recorded.replaced_by = rest or None
    elif word == "failed":
        recorded.failure = rest
    elif word == "refused":
        recorded.refused = rest
    elif word == "calls":
        recorded.calls = int(rest)
    elif word == "from":
        recorded.is_from_met = rest == "1"


def where(wanted: Wanted, address: int) -> str:
    """An address, and the function it is in if it is one of a program that has whole addresses."""
    path = shutil.which(wanted.program) or wanted.program
    for function in read_functions(str(Path(path).resolve())):
        if function.address <= address < function.address + function.size:
            return f"{address:#x} ({function.name})"
    return f"{address:#x}"
