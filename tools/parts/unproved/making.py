"""The program and the archive without a proof: kept in the user's folder for caches, under a
checksum of all that decides on them, and compiled if they are not there."""

from __future__ import annotations

import os
from contextlib import contextmanager, suppress
from datetime import date
from pathlib import Path
from typing import Iterator

from parts.command import Fault, tell
from parts.unproved.keeping import locked, put, remove_old
from parts.unproved.sources import Kind, read_sources
from parts.unproved.steps import compile_unproved, telling
from parts.unproved.toolchain import find_kit
from parts.valgrind import cache_folder

SWITCH = "KISTALUB_COMPILE"  # with 0 nothing is compiled
SAID_ON = "said-on"  # the day on which it was last said that this is unproved


class Unproved:
    """A program or archive. What is said of it begins with `speaker`."""

    def __init__(self, kind: Kind, speaker: str):
        self.kind = kind
        self._speaker = speaker
        self._kit = find_kit()
        self._sources = read_sources(kind)
        self._cache = cache_folder().absolute()
        checksum = self._sources.checksum(self._kit.identity())
        self.path = self._cache / f"unproved-{checksum}" / kind.made

    def is_kept(self) -> bool:
        """Whether it is there. Then this counts as a use of it."""
        with suppress(OSError):
            os.utime(self.path.parent)
        return self.path.is_file()

    def make(self) -> None:
        """Compiles it, unless another command does."""
        if os.environ.get(SWITCH) == "0":
            raise Fault(f"nothing is compiled with {SWITCH}=0")
        with locked(self._cache / f"{self.kind.word}.lock", self._waiting):
            if not self.path.is_file():
                self._say(
                    "compiling the code unproved, once, in a minute or two "
                    f"(it is proved by: {self.kind.proved_by})"
                )
                put(self.path.parent, self.kind.word, self._compile)
                remove_old(self._cache, f"unproved-*/{self.kind.made}")

    def _compile(self, work: Path, kept: Path) -> None:
        with telling(f"compiling {self.kind.crate}") as told:
            made = kept / self.kind.made
            compile_unproved(self.kind, self._sources, self._kit, work, made, told)
        (kept / SAID_ON).write_text(f"{date.today()}\n", encoding="ascii")

    @contextmanager
    def _waiting(self) -> Iterator[None]:
        self._say("waiting for another command, which compiles the code unproved")
        with telling(f"waiting for {self.kind.crate}") as told:
            told.step = "compiled by another command"
            yield

    def _say(self, what: str) -> None:
        tell(what, self._speaker)
