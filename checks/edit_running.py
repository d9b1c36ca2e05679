"""Runs the checks of `edits` side by side, as processors and memory allow, for a bounded time."""

from __future__ import annotations

import os
import shutil
import signal
import subprocess
import tempfile
import time
from concurrent.futures import FIRST_COMPLETED, Future, ThreadPoolExecutor, wait
from contextlib import contextmanager
from dataclasses import dataclass
from pathlib import Path
from threading import Event
from typing import Any, Callable, Iterator, Optional

from edit_kit import rattle, rt
from edit_rounds import Round

ROUND_SECONDS = 900  # of a processor, that the check of some functions may take
WHOLE_SECONDS = 2400  # that of a whole crate may take
PATIENCE = 8  # times as long a check may last, since other work may hold it up
LOOKS = 0.1  # seconds between two looks at whether a check has ended
TELLS = 30  # seconds between two lines that say what is being done
SHARE = 0.55  # of the memory that rt plans for a check of the whole crate
LEAVES = 0.85  # of the free memory

_left = Event()  # set once what still runs is to be killed


@dataclass(frozen=True)
class Ended:
    """What a check wrote and ended with, and what it took. A late one was killed."""

    turn: Round
    check: subprocess.CompletedProcess[str]
    seconds: float
    processor: float
    memory: int
    is_late: bool


def need(turn: Round) -> int:
    """Bytes that a check is likely to take."""
    return int(rt().need(turn.crate) * (1 if turn.is_whole else SHARE))


def run(turn: Round) -> Ended:
    """Checks a copy of the crate with the texts of the round in place of its own."""
    crate, limit = turn.crate, WHOLE_SECONDS if turn.is_whole else ROUND_SECONDS
    with tempfile.TemporaryDirectory(prefix=f"edits-{os.getpid()}-") as room:
        for part in rt().rtlib.PARTS:
            if os.path.isdir(f"{crate.folder}/{part}"):
                shutil.copytree(f"{crate.folder}/{part}", f"{room}/{part}")
        for path, text in turn.texts.items():
            Path(room, path).write_text(text, encoding="utf-8")
        for stand_in in turn.stand_ins():
            stand_in.put(Path(room))
        words = [rattle(), "check", *crate.words(["--jobs", "1", *turn.flags()], keeps=False)]
        with open(f"{room}/said", "w+", encoding="utf-8", errors="replace") as said:
            start = time.monotonic()
            status, used, is_late = checked(words, room, said, limit)
            said.seek(0)
            check = subprocess.CompletedProcess(words, status, said.read())
    processor, memory = used.ru_utime + used.ru_stime, used.ru_maxrss << 10
    return Ended(turn, check, time.monotonic() - start, processor, memory, is_late)


def checked(words: list[str], room: str, said: Any, limit: float) -> tuple[int, Any, bool]:
    """The status of a command, what it used, and whether it was killed at its limit."""
    given: dict[str, Any] = {"stdin": subprocess.DEVNULL, "stdout": said}
    child = subprocess.Popen([*rt().rtlib.guarded(), *words], cwd=room, stderr=said, **given)
    end, is_late = time.monotonic() + PATIENCE * limit, False
    while True:
        number, status, used = os.wait4(child.pid, os.WNOHANG)
        if number:
            child.returncode = os.waitstatus_to_exitcode(status)
            return child.returncode, used, is_late
        is_late = is_late or time.monotonic() > end or _taken(child.pid) > limit
        if is_late or _left.is_set():
            os.kill(child.pid, signal.SIGKILL)
        time.sleep(LOOKS)


def _taken(child: int) -> float:
    """The seconds of a processor that a child has had so far."""
    fields = Path(f"/proc/{child}/stat").read_text(encoding="utf-8").rpartition(")")[2].split()
    return sum(map(int, fields[11:13])) / os.sysconf("SC_CLK_TCK")


@contextmanager
def _ending() -> Iterator[None]:
    """If the block is left early, the checks that run end with it."""
    try:
        yield
    except BaseException:
        _left.set()
        raise


class Lanes:
    """Checks that run side by side. What comes of one may add others."""

    def __init__(self, jobs: int, tell: Callable[[str], None]):
        self.jobs, self.tell = jobs, tell
        self.waiting: list[Round] = []
        self.running: dict[Future[Ended], tuple[Round, float]] = {}
        self.begun = time.monotonic()
        self.memory = LEAVES * rt().free()

    def add(self, *rounds: Round) -> None:
        self.waiting += rounds
        self.waiting.sort(key=lambda each: -need(each) * (len(each.edits) + 5))

    def _next(self) -> Optional[Round]:
        """The first that there is memory for. One alone runs however little there is."""
        if len(self.running) >= self.jobs:
            return None
        left = self.memory - sum(need(turn) for turn, _ in self.running.values())
        for turn in self.waiting:
            if need(turn) <= left or not self.running:
                self.waiting.remove(turn)
                return turn
        return None

    def run(self, take: Callable[[Ended], None], left: Callable[[], str]) -> None:
        """Runs all that is there and that is added, and says from time to time what is left."""
        rt().rtlib.guarded()  # (its first call is for the main thread)
        told = time.monotonic()
        with ThreadPoolExecutor(self.jobs) as pool, _ending():
            while self.waiting or self.running:
                turn = self._next()
                if turn is not None:
                    self.running[pool.submit(run, turn)] = turn, time.monotonic()
                    continue
                for ended in wait(self.running, timeout=1, return_when=FIRST_COMPLETED).done:
                    del self.running[ended]
                    take(ended.result())
                    told = time.monotonic()
                if time.monotonic() - told >= TELLS:
                    told = time.monotonic()
                    so_far = f"{told - self.begun:.0f} s so far"
                    self.tell(f"{left()}; {so_far}; being checked: {', '.join(self._names())}")

    def _names(self) -> list[str]:
        now = time.monotonic()
        return [
            f"{turn.crate.name} ({len(turn.edits)}, {now - since:.0f} s)"
            for turn, since in self.running.values()
        ]
