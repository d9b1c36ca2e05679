"""Folders of the cache that are made as a whole, once if several commands need one at once."""

from __future__ import annotations

import fcntl
import shutil
from contextlib import contextmanager, suppress
from pathlib import Path
from typing import Callable, ContextManager, Iterator

from parts.command import Fault
from parts.started import temporary_folder

MOST_KEPT = 4  # folders of a kind
Make = Callable[[Path, Path], None]


@contextmanager
def locked(path: Path, waiting: Callable[[], ContextManager[object]]) -> Iterator[None]:
    """A lock, which ends with the process that holds it. Where another one does, this waits in
    the context that `waiting` gives."""
    with open(path, "wb") as file:
        try:
            fcntl.flock(file, fcntl.LOCK_EX | fcntl.LOCK_NB)
        except BlockingIOError:
            with waiting():
                fcntl.flock(file, fcntl.LOCK_EX)
        yield


def put(folder: Path, kind: str, make: Make) -> None:
    """Makes a folder of the cache, under the lock of its kind: `make` is given one to work in and
    one that takes the place of this at the end."""
    begins = f"making.{kind}."
    for left in folder.parent.glob(f"{begins}*"):  # by a process that was killed: its lock is free
        shutil.rmtree(left, ignore_errors=True)
    with temporary_folder(begins, folder.parent) as work:
        kept = work / "kept"
        kept.mkdir()
        try:
            make(work, kept)
        except OSError as error:  # what is written has no name of its own
            raise Fault(f"{error.filename or folder.parent}: {error.strerror}") from None
        shutil.rmtree(folder, ignore_errors=True)
        kept.rename(folder)


def remove_old(cache: Path, pattern: str) -> None:
    """Removes the folders with such a file that were used least lately."""
    used = []
    for path in cache.glob(pattern):
        with suppress(OSError):
            used.append((path.parent.stat().st_mtime, path.parent))
    for _, folder in sorted(used)[:-MOST_KEPT]:
        shutil.rmtree(folder, ignore_errors=True)
