"""The two sides of `steps`: papi_run, and PAPI 7 by step_calls.c. Each gives a reply a call,
without counts."""

from __future__ import annotations

import os
import shutil
import subprocess
from dataclasses import dataclass
from pathlib import Path
from typing import Iterable, Sequence

from here import CHECKS

from papi7 import HEADER, NotInstalled, code_names
from parts.command import Fault
from parts.libpfm4 import Libpfm4
from step_scripts import PRESETS, UNIT, USER_EVENTS, WORD_OF, Script

SOURCE = CHECKS / "step_calls.c"
OWN_CPU = "CPU,lab\n"
CRASH = "a crash"
NO_END = "no end"
NATIVE = (
    "0x4"  # how the codes of native events begin: they are numbered otherwise (docs/DIFFERENCES.md)
)
WITH_VALUES = ("stop", "read", "accum")
ALARM = 14
SECONDS = 60
TRY: Script = (
    "0 create",
    "0 add 0 perf::TASK-CLOCK",
    "0 create",
    "0 add 1 sde:::steps::ONE",
    "0 start 0",
    "0 start 1",
)


@dataclass(frozen=True)
class Reply:
    code: str
    gives: str = ""

    def __str__(self) -> str:
        return f"{self.code} {self.gives}".rstrip()


Replies = list[Reply]


def compared(call: str, code: str, gives: str) -> Reply:
    """A reply without what cannot be compared."""
    if code != "PAPI_OK" or call == "run":
        return Reply(code)
    return Reply(code, "a native event" if call == "code" and gives.startswith(NATIVE) else gives)


class Here:
    """The program under test."""

    def __init__(self, program: Path, folder: Path) -> None:
        self.program, self.folder = program.absolute(), folder
        (folder / "unit").write_text(UNIT)
        (folder / "presets").write_text(OWN_CPU + PRESETS + USER_EVENTS)
        (folder / "stream").write_text("0 01 00 u 1 1\n" * 9)

    def carry_out(self, script: Script) -> Replies:
        words = [
            self.program,
            "papi_run",
            "-U",
            "unit",
            "-P",
            "presets",
            "-C",
            "lab",
            "/dev/stdin",
            "stream",
        ]
        text = "".join(f"{line}\n" for line in script)
        done = subprocess.run(
            words, cwd=self.folder, input=text, capture_output=True, text=True, timeout=SECONDS
        )
        lines = done.stdout.splitlines()
        if done.returncode or len(lines) != len(script):
            raise Fault(f"papi_run: status {done.returncode}: {done.stderr.strip()}")
        return [self.reply(line.split()) for line in lines]

    @staticmethod
    def reply(words: list[str]) -> Reply:
        """That of a line `NUMBER THREAD CALL CODE RESULT..`."""
        call, code, results = words[2], words[3], words[4:]
        if call in WITH_VALUES and code == "PAPI_OK":
            return Reply(code, str(len(results)))
        return compared(call, code, " ".join(WORD_OF.get(result, result) for result in results))


class Papi:
    """PAPI 7 in a process for each script, over a preset file for whatever processor this is."""

    def __init__(self, folder: Path) -> None:
        if not shutil.which("cc"):
            raise NotInstalled("there is no C compiler (cc)")
        if not Path(HEADER).exists() or not Path("/usr/include/sde_lib.h").exists():
            raise NotInstalled("libpapi-dev is not installed")
        self.names = code_names()
        self.program = folder / "step_calls"
        words = ["cc", "-O1", "-o", str(self.program), str(SOURCE), "-lpapi", "-lsde", "-lpthread"]
        built = subprocess.run(words, capture_output=True, text=True)
        if built.returncode:
            raise NotInstalled(
                f"step_calls.c cannot be compiled with PAPI: {built.stderr.splitlines()[-1:]}"
            )
        processors = "".join(f"CPU,{pmu.name}\n" for pmu in Libpfm4().pmus() if pmu.kind == "core")
        files = {"PAPI_CSV_EVENT_FILE": PRESETS, "PAPI_USER_EVENTS_FILE": USER_EVENTS}
        for name, text in files.items():
            (folder / name).write_text(processors + text)
        self.environment = {**os.environ, **{name: str(folder / name) for name in files}}
        if {reply.code for reply in self.carry_out([TRY])[0]} != {"PAPI_OK"}:
            raise NotInstalled("no software event can be counted here")

    def carry_out(self, scripts: Sequence[Script]) -> list[Replies]:
        """The replies of each script, up to a crash."""
        text = "".join("".join(f"{line}\n" for line in script) + "\n" for script in scripts)
        done = subprocess.run(
            [self.program],
            input=text,
            stdout=subprocess.PIPE,
            stderr=subprocess.DEVNULL,
            text=True,
            env=self.environment,
        )
        told = self.ended(done.stdout.splitlines())
        if done.returncode or len(told) != len(scripts):
            raise Fault(
                f"step_calls: status {done.returncode}, {len(told)} of {len(scripts)} scripts"
            )
        return [self.replies(script, *each) for script, each in zip(scripts, told)]

    @staticmethod
    def ended(lines: Iterable[str]) -> list[tuple[list[str], int]]:
        found: list[tuple[list[str], int]] = []
        answers: list[str] = []
        for line in lines:
            if line.startswith("end "):
                found.append((answers, int(line[4:])))
                answers = []
            else:
                answers.append(line)
        return found

    def replies(self, script: Script, answers: list[str], status: int) -> Replies:
        replies = []
        for line, answer in zip(script, answers):
            number, _, gives = answer.partition(" ")
            replies.append(compared(line.split()[1], self.names.get(int(number), number), gives))
        if status > 0 or (not status and len(replies) != len(script)):
            raise Fault(f"step_calls: status {status} after {len(replies)} calls of {script}")
        return replies if not status else [*replies, Reply(NO_END if status == -ALARM else CRASH)]
