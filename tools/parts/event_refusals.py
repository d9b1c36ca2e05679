"""Which events a set refuses, with PAPI's code and the hint of the script that asks the program."""

from __future__ import annotations

import re
from dataclasses import dataclass
from typing import Sequence

from parts.command import Fault
from parts.papi_program import ask_program, cause_of
from parts.started import temporary_folder

MOST_TOLD = 10  # refused calls of a script that have a hint
HINT = re.compile(r"hint: line ([0-9]+): add 0 \S+: (.*)")
OK = "PAPI_OK"


@dataclass(frozen=True)
class Refusal:
    """An event that a set without others refuses."""

    event: str
    code: str
    hint: str

    def __str__(self) -> str:
        return ": ".join(filter(None, (self.event, self.code, self.hint)))


def refusals_of(files: Sequence[str], events: Sequence[str]) -> list[Refusal]:
    """Those of the events that are refused. FILES are the program's words for a unit and its
    presets."""
    refused: list[Refusal] = []
    for first in range(0, len(events), MOST_TOLD):
        refused += _refusals(files, events[first : first + MOST_TOLD])
    return refused


def _refusals(files: Sequence[str], events: Sequence[str]) -> list[Refusal]:
    with temporary_folder("refusals-") as folder:
        script = folder / "script"
        script.write_text(
            "0 create\n" + "".join(f"0 add 0 {name}\n0 cleanup 0\n" for name in events),
            encoding="ascii",
        )
        done = ask_program("papi_run", *files, str(script))
    if done.returncode:
        raise Fault(
            cause_of(done.stderr) or f"papi_run can't be asked: status {done.returncode}",
            done.returncode,
        )
    found = filter(None, map(HINT.fullmatch, done.stderr.splitlines()))
    hints = {match[1]: match[2] for match in found}
    replies = [words for words in map(str.split, done.stdout.splitlines()) if words[2] == "add"]
    return [
        Refusal(event, words[3], hints.get(words[0], ""))
        for event, words in zip(events, replies)
        if words[3] != OK
    ]
