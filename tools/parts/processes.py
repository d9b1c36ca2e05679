"""What the processes of a run did, out of the files that the tool of Valgrind writes
(tools/valgrind/totals.h)."""

from __future__ import annotations

from collections import Counter
from dataclasses import dataclass, field
from pathlib import Path

from parts.code_profile import CodeProfile, ProfileReader, text_of
from parts.command import Fault

PROFILE_WORDS = (b"code", b"line", b"call")


@dataclass
class Process:
    """A process, with all programs that it was."""

    way: tuple[
        int, ...
    ]  # from the first process, which is (1,), to its child of a number, and so on
    program: str = ""
    threads: dict[int, Counter[str]] = field(default_factory=dict)  # by kind of occurrence
    calls: int = 0  # of the library
    called: Counter[int] = field(default_factory=Counter)  # named functions, by number
    children: int = 0
    profile: CodeProfile = field(default_factory=CodeProfile)
    has_ended: bool = False  # else nothing is known of its last program
    is_refused: bool = False  # it called the library, which the run could not serve
    undetermined: int | None = None  # the first call of the system that left the order open

    def total(self) -> Counter[str]:
        return sum(self.threads.values(), Counter[str]())


@dataclass
class _Program:
    """What a process did as one of its programs."""

    path: str
    threads: dict[int, Counter[str]] = field(default_factory=dict)
    calls: int = 0
    called: Counter[int] = field(default_factory=Counter)
    profile: ProfileReader = field(default_factory=ProfileReader)
    ended: str = ""
    undetermined: int | None = None


def read_processes(folder: Path) -> list[Process]:
    """All processes, each behind its parent, and those of a parent in their order."""
    found = [_read(path) for path in folder.iterdir()]
    return sorted(found, key=lambda process: process.way)


def _read(path: Path) -> Process:
    process = Process(tuple(map(int, path.name.split("."))))
    programs: list[_Program] = []
    for line in path.read_bytes().splitlines():
        word, _, rest = line.partition(b" ")
        if word == b"program":
            programs.append(_Program(text_of(rest)))
        elif not programs:
            raise Fault("the tool of Valgrind told nothing that can be read")
        elif word in PROFILE_WORDS:
            programs[-1].profile.take(word, rest)
        else:
            _take(process, programs[-1], word.decode("ascii"), rest.decode("ascii"))
    for program in programs:
        process.program = program.path
        process.calls += program.calls
        process.called += program.called
        process.profile.add(program.profile.profile)
        process.has_ended = program.ended == "ended"
        if process.undetermined is None:
            process.undetermined = program.undetermined
        for number, counts in program.threads.items():
            process.threads[number] = process.threads.get(number, Counter()) + counts
    process.threads = {number: process.threads[number] for number in sorted(process.threads)}
    return process


def _take(process: Process, program: _Program, word: str, rest: str) -> None:
    if word == "thread":
        number, kind, count = rest.split()
        program.threads.setdefault(int(number), Counter())[kind] += int(count)
    elif word == "function":
        function, calls = map(int, rest.split())
        program.called[function] += calls
    elif word == "calls":
        program.calls = int(rest)
    elif word == "children":
        process.children = int(rest)
    elif word == "undetermined":
        program.undetermined = int(rest)
    elif word == "refused":
        process.is_refused = True
    elif word == "stays":  # what was told before tells what it did up to there
        program.threads.clear()
        program.called.clear()
        program.profile = ProfileReader()
        program.ended = ""
    else:
        program.ended = word


def numbered(processes: list[Process]) -> dict[tuple[int, ...], int]:
    """The numbers of processes, from 1 on, by their ways."""
    return {process.way: number for number, process in enumerate(processes, start=1)}
