"""What the program says of sets of events. Which events fit together is known from its replies
alone."""

from __future__ import annotations

from dataclasses import dataclass, field
from typing import Iterator, Sequence

from formats.scripts import calls_of
from parts.command import Fault
from parts.papi_program import ask_program, cause_of
from parts.report.replies import CONFLICT, Step, read_replies
from parts.started import temporary_folder

MOST_CALLS = 100_000  # of a script
MOST_BYTES = 8_388_608
FRONT = "0 create"
FULL = "PAPI_ECOUNT"


@dataclass(frozen=True)
class Conflict:
    """Native events that are allowed these counters and no others, which are fewer."""

    natives: frozenset[str]
    counters: frozenset[str]


@dataclass
class Tried:
    """What happened to events that were added one after another to an empty set."""

    taken: list[str] = field(default_factory=list)
    names: list[str] = field(default_factory=list)  # of those, as the set has them
    counters: dict[str, str] = field(default_factory=dict)  # of each native event
    conflicts: list[Conflict] = field(default_factory=list)
    full: list[list[str]] = field(default_factory=list)  # too many events, or native ones
    refused: list[str] = field(default_factory=list)


class Program:
    """The program over a unit and its presets, by the words that name them."""

    def __init__(self, files: Sequence[str]):
        self.files = tuple(files)

    def try_sets(self, sets: Sequence[Sequence[str]]) -> list[Tried]:
        """Adds the events of each of these to an empty set, in as few scripts as have room."""
        tried: list[Tried] = []
        for lines in _scripts(sets):
            tried += map(_tried, _parts(self._steps(lines)))
        return tried

    def _steps(self, lines: Sequence[str]) -> list[Step]:
        with temporary_folder("plan-") as folder:
            script = folder / "script"
            script.write_text("".join(f"{line}\n" for line in lines), encoding="ascii")
            done = ask_program("papi_run", *self.files, "--quiet", str(script))
        if done.returncode:
            why = cause_of(done.stderr) or f"papi_run can't be asked: status {done.returncode}"
            raise Fault(why, done.returncode)
        return read_replies(calls_of(list(lines)), done.stdout.splitlines())[0]


def _lines(events: Sequence[str]) -> list[str]:
    adds = [f"0 add 0 {event}" for event in events]
    return [*adds, "0 events 0", "0 assign 0", "0 cleanup 0"]


def _scripts(sets: Sequence[Sequence[str]]) -> Iterator[list[str]]:
    script, size = [FRONT], len(FRONT) + 1
    for events in sets:
        lines = _lines(events)
        more = sum(len(line) + 1 for line in lines)
        if len(script) + len(lines) > MOST_CALLS or size + more > MOST_BYTES:
            yield script
            script, size = [FRONT], len(FRONT) + 1
        script += lines
        size += more
    if len(script) > 1:
        yield script


def _parts(steps: Sequence[Step]) -> Iterator[list[Step]]:
    """The steps of each set: those up to its cleanup."""
    part: list[Step] = []
    for step in steps[1:]:
        part.append(step)
        if step.call.name == "cleanup":
            yield part
            part = []


def _tried(steps: Sequence[Step]) -> Tried:
    tried = Tried()
    for step in steps:
        if step.call.name == "add":
            _take(tried, step)
        elif step.call.name == "events":
            tried.names = list(step.results)
        elif step.call.name == "assign":
            pairs = (pair.rpartition("=") for pair in step.results)
            tried.counters = {native: counter for native, _, counter in pairs}
    return tried


def _take(tried: Tried, step: Step) -> None:
    event = step.call.arguments[1]
    if step.is_done:
        tried.taken.append(event)
        return
    tried.refused.append(event)
    if step.code == CONFLICT:
        tried.conflicts.append(Conflict(*map(frozenset, step.blame())))
    elif step.code == FULL:
        tried.full.append([*tried.taken, event])
