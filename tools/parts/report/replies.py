"""The calls of a script, each with its reply, and the notes below them (docs/FORMATS.md,
Replies)."""

from __future__ import annotations

from dataclasses import dataclass
from typing import Iterable, Sequence

from formats.scripts import CALLS, Call
from parts.command import Fault

OK = "PAPI_OK"
STREAM_FAULT = "PAPI_ESYS"  # a run that met a bad line: no refusal
CONFLICT = "PAPI_ECNFLCT"
OF_SETS = [name for name, arguments in CALLS.items() if arguments[:1] == ("SET",)]


@dataclass(frozen=True)
class Note:
    """A threshold that was passed: the set and the event's index in it, and the program counter."""

    thread: int
    set: int
    index: int
    address: str


@dataclass(frozen=True)
class Step:
    """A call and its reply."""

    call: Call
    code: str
    results: tuple[str, ...]

    @property
    def is_done(self) -> bool:
        return self.code == OK

    @property
    def is_refused(self) -> bool:
        return self.code not in (OK, STREAM_FAULT)

    @property
    def set(self) -> int | None:
        """The number of the set that the call works on or makes."""
        if self.call.name == "create" and self.is_done:
            return int(self.results[0])
        return int(self.call.arguments[0]) if self.call.name in OF_SETS else None

    @property
    def consumed(self) -> int:
        return int(self.results[0]) if self.call.name == "run" else 0

    def blame(self) -> tuple[tuple[str, ...], tuple[str, ...]]:
        """The native events to blame for a conflict, and the counters that they are allowed."""
        place = self.results.index("/")
        return self.results[:place], self.results[place + 1 :]


def read_replies(calls: Sequence[Call], lines: Iterable[str]) -> tuple[list[Step], list[Note]]:
    """The steps and the notes of what papi_run printed."""
    steps: list[Step] = []
    notes: list[Note] = []
    for text in lines:
        words = text.split()
        if words[:1] == ["note"]:
            notes.append(Note(int(words[1]), int(words[2]), int(words[3]), words[4]))
            continue
        call = calls[len(steps)] if len(steps) < len(calls) else None
        if (
            call is None or len(words) < 4
            or words[:3] != [str(call.line), str(call.thread), call.name]
        ):
            raise Fault(f"papi_run printed a line that is no reply: {text}")
        steps.append(Step(call, words[3], tuple(words[4:])))
    if len(steps) != len(calls):
        raise Fault(f"papi_run printed {len(steps)} replies to {len(calls)} calls")
    return steps, notes
