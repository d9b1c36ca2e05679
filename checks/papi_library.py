"""The library for C as it is installed, and how programs run over it: for `papi_programs`."""

from __future__ import annotations

import os
import signal
import subprocess
import tempfile
from dataclasses import dataclass
from pathlib import Path
from typing import IO, Iterable

from here import ROOT

SHARED = "libpapi.so.7.0"


@dataclass(frozen=True)
class Files:
    """What programs run over: a unit, presets for a cpu or none, and the streams. Of events that
    count nothing nothing is said: it is the programs' own words that are looked at."""

    unit: Path
    presets: Path | None = None
    cpu: str = ""
    stream: Path | None = None

    def environment(self) -> dict[str, str]:
        names = {
            "KISTALUB_UNIT": self.unit,
            "KISTALUB_PRESETS": self.presets,
            "KISTALUB_CPU": self.cpu,
            "KISTALUB_STREAM": self.stream,
        }
        return {
            "KISTALUB_HINTS": "0",
            **{name: str(value) for name, value in names.items() if value},
        }


@dataclass(frozen=True)
class Ran:
    """What a program ended with and wrote. A status below 0 is a signal's number, and none says
    that it did not end in time."""

    status: int | None
    out: str
    err: str

    @property
    def how(self) -> str:
        """How it ended, in words."""
        if self.status is None:
            return "no end in time"
        return (
            f"signal {signal.Signals(-self.status).name}" if self.status < 0
            else f"status {self.status}"
        )


def run(words: Iterable[object], environment: dict[str, str], seconds: int, folder: Path) -> Ran:
    """Runs a program in a folder, with all that it starts in a group of its own, which is ended
    with it."""
    clean = {
        name: value for name, value in os.environ.items()
        if not name.startswith(("KISTALUB_", "PAPI_"))
    }
    with tempfile.TemporaryFile() as out, tempfile.TemporaryFile() as err:
        child = subprocess.Popen(
            [str(word) for word in words], cwd=folder, env={**clean, **environment},
            stdin=subprocess.DEVNULL, stdout=out, stderr=err, start_new_session=True,
        )
        status: int | None = None
        try:
            status = child.wait(seconds)
        except subprocess.TimeoutExpired:
            pass
        finally:
            end_group(child.pid)
            child.wait()
        return Ran(status, text_of(out), text_of(err))


def end_group(leader: int) -> None:
    """Ends what a program started and left behind, and the program itself if it runs."""
    try:
        os.killpg(leader, signal.SIGKILL)
    except ProcessLookupError:
        pass


def text_of(file: IO[bytes]) -> str:
    file.seek(0)
    return file.read().decode(errors="replace")


class Library:
    """The library and its headers under a folder, as bin/install puts them there."""

    def __init__(self, prefix: Path):
        self.folder = prefix / "lib/kistalub"
        self.include = self._include(prefix)

    @staticmethod
    def _include(prefix: Path) -> Path:
        inner = prefix / "lib/kistalub/include"
        return inner if (inner / "papi.h").exists() else prefix / "include/kistalub"

    @staticmethod
    def install(prefix: Path) -> str:
        """Installs under a folder, and says what went wrong, or nothing."""
        done = subprocess.run(
            [str(ROOT / "bin/install"), str(prefix)], capture_output=True, text=True
        )
        if done.returncode:
            return done.stderr.strip() or f"bin/install ends with status {done.returncode}"
        return (
            "" if (prefix / "lib/kistalub" / SHARED).exists()
            else f"bin/install puts no {SHARED} there"
        )

    def environment(self, files: Files) -> dict[str, str]:
        return {"LD_LIBRARY_PATH": str(self.folder), **files.environment()}

    def words(self) -> list[str]:
        """The words for a compiler that build a program over the library."""
        return [f"-I{self.include}", f"-L{self.folder}", "-lpapi"]
