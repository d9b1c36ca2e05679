"""Standard output and standard error that take nothing or not all of what the program writes."""

from __future__ import annotations

import fcntl
import os
import resource
import shutil
import signal
import subprocess
import tempfile
import threading
from contextlib import contextmanager
from dataclasses import replace
from pathlib import Path
from typing import Callable, Iterator

from running import (
    EXAMPLE_OF, EXAMPLES, MOST_SETS, WHOLE, WRITE_FAULT, Example, Program, Run, Tally, differs,
)


class Room:
    """What one of the outputs is during a run: how many bytes it takes, and its descriptor; None
    for one that is closed."""

    def __init__(self, takes: int, descriptor: int | None, taken: Path | None = None):
        self.takes = takes
        self.descriptor = descriptor
        self.taken = taken

    def bytes(self) -> bytes:
        return self.taken.read_bytes() if self.taken else b""


@contextmanager
def full_device(folder: Path, takes: int) -> Iterator[Room]:
    device = os.open("/dev/full", os.O_WRONLY)
    yield Room(0, device)
    os.close(device)


@contextmanager
def closed(folder: Path, takes: int) -> Iterator[Room]:
    yield Room(0, None)


@contextmanager
def read_only(folder: Path, takes: int) -> Iterator[Room]:
    device = os.open("/dev/null", os.O_RDONLY)
    yield Room(0, device)
    os.close(device)


@contextmanager
def no_reader(folder: Path, takes: int) -> Iterator[Room]:
    reader, writer = os.pipe()
    os.close(reader)
    yield Room(0, writer)
    os.close(writer)


@contextmanager
def file_of(folder: Path, takes: int) -> Iterator[Room]:
    """A file, which the limit of the process keeps from growing past `takes`."""
    path = folder / "taken"
    descriptor = os.open(path, os.O_WRONLY | os.O_CREAT | os.O_TRUNC)
    yield Room(takes, descriptor, path)
    os.close(descriptor)


WAYS = {
    "a full device": full_device,
    "closed": closed,
    "open for reading alone": read_only,
    "a pipe without a reader": no_reader,
    "a file that takes some bytes": file_of,
}

# (the first of each tool, and what writes on standard error)
OUTPUT_EXAMPLES = [
    *EXAMPLE_OF.values(), "overflow", "threads", "event_chooser_refused", "avail_unknown",
    "regions_wrong", "bad_line", "bad_width", "bad_words",
]


def wanted_of(example: Example, output: str, takes: int) -> Run:
    """A run whose output `out` or `err` takes a limited number of bytes. A failed write ends the
    writing, and `out` is written first."""
    wanted = example.wanted
    if output == "out" and len(wanted.out) > takes:
        return Run(WRITE_FAULT, wanted.out[:takes], b"")
    if output == "err" and len(wanted.err) > takes:
        return Run(WRITE_FAULT, wanted.out, wanted.err[:takes])
    return wanted


def before_start(number: int, room: Room, signals: bool) -> Callable[[], None]:
    """What the child does before it becomes the program."""

    def prepare() -> None:
        if room.descriptor is None:
            os.close(number)
        if room.taken:
            resource.setrlimit(resource.RLIMIT_FSIZE, (room.takes, room.takes))
            signal.signal(signal.SIGXFSZ, signal.SIG_IGN)
        signal.signal(signal.SIGPIPE, signal.SIG_DFL if signals else signal.SIG_IGN)

    return prepare


def check_output(
    tally: Tally, program: Program, name: str, output: str, way: str, takes: int, signals: bool
) -> None:
    example = Example.named(name)
    number = 1 if output == "out" else 2
    with tempfile.TemporaryDirectory() as made, WAYS[way](Path(made), takes) as room:
        how = {f"std{output}": subprocess.DEVNULL if room.descriptor is None else room.descriptor}
        run = program.run(
            list(example.words), preexec_fn=before_start(number, room, signals), **how
        )
        run = replace(run, **{output: room.bytes()})
    wanted = wanted_of(example, output, room.takes)
    if not room.taken:
        wanted = replace(wanted, **{output: b""})
    tally.judge(
        f"{name}: standard {'output' if number == 1 else 'error'} {way}, {takes} bytes",
        differs(run, wanted),
    )


def check_outputs(tally: Tally, program: Program, tools: list[str]) -> None:
    for name in OUTPUT_EXAMPLES:
        example = Example.named(name)
        if example.words[0] not in tools:
            continue
        for output, text in (("out", example.wanted.out), ("err", example.wanted.err)):
            for way in WAYS:
                for takes in (
                    sorted({0, 1, len(text) // 2, len(text) - 1, len(text)})
                    if way == "a file that takes some bytes" and text else [0]
                ):
                    for signals in (True, False) if way == "a pipe without a reader" else (True,):
                        check_output(tally, program, name, output, way, takes, signals)
        check_standard_input(tally, program, name)


def check_standard_input(tally: Tally, program: Program, name: str) -> None:
    """Without a standard input the program's first file gets its number."""
    example = Example.named(name)
    run = program.run(list(example.words), preexec_fn=lambda: os.close(0))
    tally.judge(f"{name}: standard input closed", differs(run, example.wanted))
    run = program.run(
        list(example.words), stdout=subprocess.DEVNULL, stderr=subprocess.DEVNULL,
        preexec_fn=lambda: os.closerange(0, 3),
    )
    tally.judge(f"{name}: all three closed", differs(run, Run(WRITE_FAULT, b"", b"")))


# Long outputs

MANY = 20_000


def long_output() -> bytes:
    """The replies to many calls of `create`: the first make a set each, and the others are
    refused."""
    sets = [f"{line} 0 create PAPI_OK {line - 1}\n" for line in range(1, MOST_SETS + 1)]
    return "".join(
        sets + [f"{line} 0 create PAPI_ECOUNT\n" for line in range(MOST_SETS + 1, MANY + 1)]
    ).encode()


def run_long(program: Program, folder: Path, **how: object) -> Run:
    (folder / "many").write_bytes(b"0 create\n" * MANY)
    shutil.copy(EXAMPLES / "lab.unit", folder)
    return program.run(["papi_run", "-U", "lab.unit", "many"], folder, **how)


def read_some(descriptor: int, pieces: int, size: int) -> bytes:
    """Reads this many pieces of a pipe, and closes it."""
    taken = b""
    for _ in range(pieces):
        piece = os.read(descriptor, size)
        if not piece:
            break
        taken += piece
    os.close(descriptor)
    return taken


def check_long(tally: Tally, program: Program) -> None:
    whole = long_output()
    with tempfile.TemporaryDirectory() as made:
        folder = Path(made)
        tally.judge("a long output", differs(run_long(program, folder), Run(WHOLE, whole, b"")))
        for takes in (65_535, 65_536, 65_537, 131_072, len(whole) - 1, len(whole)):
            with file_of(folder, takes) as room:
                run = run_long(
                    program, folder, stdout=room.descriptor, preexec_fn=before_start(1, room, True)
                )
                run = replace(run, out=room.bytes())
            wanted = (
                Run(WHOLE, whole, b"") if takes == len(whole)
                else Run(WRITE_FAULT, whole[:takes], b"")
            )
            tally.judge(f"a long output to a file that takes {takes:,} bytes", differs(run, wanted))
        for pieces, size in ((1, 10), (100, 100), (MANY, 4096)):
            check_reader(tally, program, folder, whole, pieces, size)
        check_full_pipe(tally, program, folder, whole)


def check_reader(
    tally: Tally, program: Program, folder: Path, whole: bytes, pieces: int, size: int
) -> None:
    """A reader that takes some pieces and goes while the program still writes."""
    reader, writer = os.pipe()
    taken: list[bytes] = []
    thread = threading.Thread(target=lambda: taken.append(read_some(reader, pieces, size)))
    thread.start()
    run = run_long(program, folder, stdout=writer)
    os.close(writer)
    thread.join()
    ends = pieces * size >= len(whole)
    wanted = Run(WHOLE, whole, b"") if ends else Run(WRITE_FAULT, whole[: pieces * size], b"")
    tally.judge(
        f"a long output to a reader that takes {pieces:,} pieces of {size:,} bytes",
        differs(replace(run, out=taken[0]), wanted),
    )


def check_full_pipe(tally: Tally, program: Program, folder: Path, whole: bytes) -> None:
    """A pipe that is full, and on which a write does not wait."""
    reader, writer = os.pipe()
    os.set_blocking(writer, False)
    room = fcntl.fcntl(writer, fcntl.F_GETPIPE_SZ)
    run = run_long(program, folder, stdout=writer)
    os.close(writer)
    run = replace(run, out=read_some(reader, MANY, 65_536))
    tally.judge(
        "a long output to a full pipe that does not wait",
        differs(run, Run(WRITE_FAULT, whole[:room], b"")),
    )
