"""A file of counts that later ones are compared with, for the tests of a project."""

from __future__ import annotations

import fcntl
import json
import os
import platform
import tempfile
from contextlib import contextmanager
from pathlib import Path
from typing import Any, Iterator

FORMAT, VERSION = "kistalub-baseline", 1
MOST_BYTES = 1 << 26


class FaultyBaseline(Exception):
    """The file is not in its form. The text says where and why."""


class Baseline:
    """The counts of blocks by the names of their tests."""

    def __init__(self, path: Path):
        self.path = path

    def counts_of(self, name: str) -> dict[str, int] | None:
        """What was counted, or None if nothing was."""
        counts: dict[str, int] | None = self._read()["counts"].get(name)
        return counts

    def python(self) -> str:
        """The version of Python that the file was written by."""
        return str(self._read()["python"])

    def put(self, name: str, counts: dict[str, int]) -> None:
        """Writes what was counted. Processes that test side by side write one after the other, and
        a reader sees the old file or the new one."""
        with self._alone():
            content = self._read()
            content["python"] = platform.python_version()
            content["counts"][name] = counts
            content["counts"] = dict(sorted(content["counts"].items()))
            text = json.dumps(content, indent=2) + "\n"
            with tempfile.TemporaryDirectory(dir=self.path.parent, prefix=".counts-") as folder:
                whole = Path(folder) / self.path.name
                whole.write_text(text, encoding="ascii")
                os.replace(whole, self.path)

    @contextmanager
    def _alone(self) -> Iterator[None]:
        folder = os.open(self.path.parent, os.O_RDONLY)
        try:
            fcntl.flock(folder, fcntl.LOCK_EX)
            yield
        finally:
            os.close(folder)

    def _read(self) -> dict[str, Any]:
        try:
            with open(self.path, "rb") as file:
                text = file.read(MOST_BYTES + 1)
        except FileNotFoundError:
            return {
                "format": FORMAT,
                "version": VERSION,
                "python": platform.python_version(),
                "counts": {},
            }
        try:
            content = json.loads(text) if len(text) <= MOST_BYTES else None
        except (ValueError, RecursionError):
            content = None
        if not isinstance(content, dict) or not _is_baseline(content):
            raise FaultyBaseline(
                f"{self.path}: no baseline of counts ({FORMAT}, version {VERSION})"
            )
        return content


def _is_baseline(content: dict[str, Any]) -> bool:
    if (content.get("format"), content.get("version")) != (FORMAT, VERSION):
        return False
    counts = content.get("counts")
    return (
        isinstance(content.get("python"), str)
        and isinstance(counts, dict)
        and all(map(_are_counts, counts.values()))
    )


def _are_counts(counts: Any) -> bool:
    return isinstance(counts, dict) and all(type(count) is int for count in counts.values())
