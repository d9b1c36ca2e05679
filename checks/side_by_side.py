"""Runs commands side by side, as many as there are processors, each with a bounded time, and
says at times what is at work."""

from __future__ import annotations

import os
import re
import signal
import subprocess
import time
from contextlib import suppress
from dataclasses import dataclass, field
from pathlib import Path
from typing import Callable, Iterable

from parts.command import uninterrupted

EVERY = 8.0  # seconds, between two lines that say what is at work
LOOK = 0.1
LAST = re.compile(r"^(\d+) passed, (\d+) failed$", re.MULTILINE)  # the last line of a check
SKIPPED = re.compile(r"^(?:check: )?(skipped: .+|no C compiler: .+)$", re.MULTILINE)
LINES_SHOWN = 30  # of what a part that failed has written


@dataclass(frozen=True)
class Part:
    """A command at the top of a checkout. One that counts nothing passes as one."""

    name: str
    command: tuple[str, ...]
    folder: Path
    needs: tuple[str, ...] = ()  # parts that must have passed before
    seconds: int = 600  # it is ended after
    counts: bool = True
    count: re.Pattern[str] = LAST  # the last line of this form has the count
    processors: int = 1
    environment: dict[str, str] = field(default_factory=dict)
    then: Callable[[str], None] | None = None  # is told what it wrote, if it passed


@dataclass(frozen=True)
class Ended:
    """How a part ended."""

    part: Part
    passed: int
    failed: int
    seconds: float
    why: str = ""
    said: str = ""

    def skipped(self) -> list[str]:
        """What it says that it has skipped."""
        return [re.sub(r"^skipped: ", "", line) for line in SKIPPED.findall(self.said)]


class _Running:
    """A part that runs, in a session of its own, so that all that it has started ends with it."""

    def __init__(self, part: Part, log: Path):
        self.part = part
        self.log = log
        self.begun = time.monotonic()
        with log.open("wb") as output:
            self.child = subprocess.Popen(
                part.command,
                cwd=part.folder,
                env={**os.environ, **part.environment},
                stdin=subprocess.DEVNULL,
                stdout=output,
                stderr=subprocess.STDOUT,
                start_new_session=True,
            )

    def seconds(self) -> float:
        return time.monotonic() - self.begun

    def end(self) -> None:
        with suppress(ProcessLookupError):
            os.killpg(self.child.pid, signal.SIGKILL)
        self.child.wait()

    def ended(self) -> Ended | None:
        """How it ended, if it has, or if its time is over."""
        is_over = self.seconds() > self.part.seconds
        if self.child.poll() is None and not is_over:
            return None
        self.end()
        said = self.log.read_text(encoding="utf-8", errors="replace")
        return judged(self.part, None if is_over else self.child.returncode, said, self.seconds())


def judged(part: Part, status: int | None, said: str, seconds: float) -> Ended:
    """What a part came to by its status, none if it did not end in time, and by its last line."""
    last = said if part.count != LAST else said.rstrip("\n").rpartition("\n")[2]
    found = part.count.findall(last) if part.counts else []
    passed, failed = map(int, found[-1]) if found else (0, 0)
    if status is None:
        why = f"no end in {part.seconds} seconds"
    elif status < 0:
        why = f"ended by signal {-status}"
    elif part.counts and not found:
        why = f"no count, and status {status}"
    elif status:
        why = f"status {status}"
    else:
        why = ""
    if not part.counts:
        return Ended(part, int(not why), int(bool(why)), seconds, why, said)
    return Ended(
        part,
        passed,
        max(failed, int(bool(why))),
        seconds,
        why or f"{failed} failed" * bool(failed),
        said,
    )


def not_begun(part: Part, why: str) -> Ended:
    return Ended(part, 0, 1, 0, why)


@dataclass
class Work:
    """Parts that are to run. The first that may run and has its processors begins."""

    waiting: list[Part]
    processors: int
    folder: Path  # for what they write
    tell: Callable[[str], None]
    running: list[_Running] = field(default_factory=list)
    ended: list[Ended] = field(default_factory=list)
    _told: float = 0

    def run(self) -> list[Ended]:
        """Runs all, and gives how they ended. Whatever ends this ends what runs."""
        self._told = time.monotonic()
        try:
            while self.waiting or self.running:
                self._take_ended()
                self._drop_lost()
                self._begin()
                self._tell_at_times()
                time.sleep(LOOK)
        finally:
            for each in self.running:
                each.end()
        return self.ended

    def _take_ended(self) -> None:
        for each in list(self.running):
            if ended := each.ended():
                self.running.remove(each)
                self._note(ended)
                if each.part.then and not ended.why:
                    each.part.then(ended.said)

    def _note(self, ended: Ended) -> None:
        self.ended.append(ended)
        count = f"{ended.passed} passed, {ended.failed} failed"
        self.tell(
            f"{ended.part.name}: {count}, {ended.seconds:.0f} s"
            + f" ({ended.why})" * bool(ended.why)
        )
        if ended.why:
            for line in ended.said.splitlines()[-LINES_SHOWN:]:
                self.tell(f"    {line}")

    def _drop_lost(self) -> None:
        """Parts that need one that failed."""
        lost = {ended.part.name for ended in self.ended if ended.why}
        for part in list(self.waiting):
            if missing := lost.intersection(part.needs):
                self.waiting.remove(part)
                self._note(not_begun(part, f"not begun: {', '.join(sorted(missing))} failed"))

    def _begin(self) -> None:
        there = {ended.part.name for ended in self.ended}
        for part in list(self.waiting):
            free = self.processors - sum(each.part.processors for each in self.running)
            if there.issuperset(part.needs) and (part.processors <= free or not self.running):
                self.waiting.remove(part)
                self._start(part)

    def _start(self, part: Part) -> None:
        try:
            with uninterrupted():
                number = len(self.ended) + len(self.running)
                self.running.append(_Running(part, self.folder / f"{number}.log"))
        except OSError as error:
            self._note(not_begun(part, f"{part.command[0]}: {error.strerror}"))

    def _tell_at_times(self) -> None:
        if time.monotonic() - self._told >= EVERY:
            self._told = time.monotonic()
            works = ", ".join(f"{each.part.name} ({each.seconds():.0f} s)" for each in self.running)
            done, all_parts = len(self.ended), [*self.ended, *self.running, *self.waiting]
            self.tell(f"at work: {works}; {done} of {len(all_parts)} parts are done")


def skipped_in(ended: Iterable[Ended]) -> list[str]:
    """What was skipped, each once."""
    return list(dict.fromkeys(reason for each in ended for reason in each.skipped()))
