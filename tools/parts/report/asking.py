"""The tools of this repository, run by their scripts in bin/. All that a report shows is what they
print."""

from __future__ import annotations

import os
import re
import subprocess
from dataclasses import dataclass
from pathlib import Path
from typing import Iterable, Mapping, Sequence

from formats.files import Unread, read_lines
from parts.command import Fault, heed_signal, uninterrupted
from parts.started import ends_with_parent, temporary_folder

ROOT = Path(__file__).resolve().parents[3]
DONE, SAYS_NO, REFUSED, READ_FAULT = range(4)
NOT_TWICE = "not a file that can be read twice"
# the scripts of bin/ begin so what they say of the program itself
OF_BUILD = "papi: the proved program "


@dataclass(frozen=True)
class Tables:
    """A unit file, and a preset file with the processor whose presets are read, or neither."""

    unit: str
    presets: str | None = None
    cpu: str | None = None

    def words(self, with_presets: bool = True) -> list[str]:
        given = [f"-U{self.unit}"]
        return (
            [*given, f"-P{self.presets}", f"-C{self.cpu}"]
            if with_presets and self.presets is not None else given
        )


@dataclass(frozen=True)
class Answer:
    status: int
    lines: list[str]
    errors: list[str]

    def said(self) -> list[str]:
        """What was said of the files, and of nothing else."""
        return [line for line in self.errors if not line.startswith(OF_BUILD)]


def _answer_of(
    command: Sequence[str], environment: Mapping[str, str], to: int | None = subprocess.PIPE
) -> Answer:
    """What a command answers. If this process is told to end, the command is too. With `to` its
    standard error goes elsewhere."""
    child: subprocess.Popen[bytes] | None = None
    try:
        with uninterrupted():
            child = subprocess.Popen(
                command, stdin=subprocess.DEVNULL, stdout=subprocess.PIPE, stderr=to,
                env=environment, preexec_fn=ends_with_parent(),
            )
        out, errors = child.communicate()
    except BaseException:
        if child is not None:
            with child:
                child.terminate()
        raise
    heed_signal(child.returncode)
    return Answer(
        child.returncode,
        *(
            output.decode("utf-8", "surrogateescape").splitlines()
            for output in (out, errors or b"")
        ),
    )


def read_again(name: str) -> list[str]:
    """The lines of a script that the program took, as it reads them."""
    try:
        return read_lines(name)
    except (Unread, OSError):
        raise Fault(f"{name}: {NOT_TWICE}") from None


def check_files(names: Iterable[str]) -> None:
    """Each file is read more than once, so one that is there has to be regular."""
    for name in names:
        if os.path.exists(name) and not os.path.isfile(name):
            raise Fault(f"{name}: {NOT_TWICE}")


class Tools:
    """Runs the tools over the same tables. Scripts that it is given as lines go through a file of
    its own."""

    def __init__(self, tables: Tables):
        self.tables = tables
        self._made = temporary_folder("report.")
        self._folder = self._made.__enter__()
        self._natives: dict[str, tuple[str, ...]] = {}
        self._presets: set[str] = set()
        self._counters: dict[str, tuple[str, ...]] = {}

    def __enter__(self) -> Tools:
        # If that takes a minute, a line on standard error says so.
        _answer_of([str(ROOT / "bin/papi"), "--compile"], os.environ, to=None)
        return self

    def __exit__(self, *error: object) -> None:
        self._made.__exit__(None, None, None)

    def ask(
        self, tool: str, options: Sequence[str] = (), words: Sequence[str] = (), hints: bool = False
    ) -> Answer:
        """What a tool answers: its lines on both outputs, and its status. A refusal without an
        output is a fault."""
        command = [
            str(ROOT / "bin" / tool), *self.tables.words(tool != "papi_native_avail"), *options,
            *(["--", *words] if words else []),
        ]
        answer = _answer_of(command, {**os.environ, "KISTALUB_HINTS": "1" if hints else "0"})
        if answer.status not in (DONE, SAYS_NO) and (
            answer.status not in (REFUSED, READ_FAULT) or not answer.lines
        ):
            said, *more = answer.said() or [f"{tool} ended with status {answer.status}"]
            raise Fault(said, max(answer.status, 1), more)
        return answer

    def written(self, name: str, lines: Sequence[str]) -> str:
        """A file with these lines."""
        path = self._folder / name
        path.write_text(
            "".join(f"{line}\n" for line in lines), encoding="utf-8", errors="surrogateescape"
        )
        return str(path)

    def run(self, script: Sequence[str], streams: Sequence[str] = ()) -> Answer:
        """What papi_run answers to the lines of a script, with the notes."""
        return self.ask("papi_run", ["--notes"], [self.written("script", script), *streams])

    def natives_of(self, event: str) -> tuple[str, ...]:
        """The canonical names of the native events of an event, whatever names it: none if nothing
        has this name."""
        if event not in self._natives:
            self._natives[event] = self._of_preset(event) or self._of_native(event)
        return self._natives[event]

    def is_preset(self, event: str) -> bool:
        """Whether an event is a preset or a user event."""
        natives = self.natives_of(event)
        return bool(natives) and event in self._presets

    def name_in_set(self, event: str) -> str:
        """What the call `events` says of an event that a set has: the canonical name of a native
        one."""
        natives = self.natives_of(event)
        return natives[0] if natives and not self.is_preset(event) else event

    def counters_of(self, native: str) -> tuple[str, ...]:
        """The counters that a native event is allowed."""
        self.natives_of(native)
        return self._counters.get(native, ())

    def _of_preset(self, event: str) -> tuple[str, ...]:
        if self.tables.presets is None or ":" in event:
            return ()
        natives = tuple(
            value for name, value in self._fields("papi_avail", event).items()
            if name.startswith("Native ")
        )
        if natives:
            self._presets.add(event)
        return natives

    def _of_native(self, event: str) -> tuple[str, ...]:
        fields = self._fields("papi_native_avail", event)
        if "Name" not in fields:
            return ()
        self._counters[fields["Name"]] = tuple(fields.get("Counters", "").split())
        return (fields["Name"],)

    def _fields(self, tool: str, event: str) -> dict[str, str]:
        """The lines `NAME: VALUE` of a tool about one event."""
        answer = self.ask(tool, [f"-e{event}"])
        return (
            {} if answer.status
            else dict(re.split(": ?", line, maxsplit=1) for line in answer.lines)
        )
