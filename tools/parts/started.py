"""Folders and processes of a tool. None outlives it, whatever ends it."""

from __future__ import annotations

import ctypes
import os
import signal
import subprocess
import tempfile
from contextlib import contextmanager
from pathlib import Path
from typing import Callable, Iterator

from parts.command import uninterrupted

LIBC = ctypes.CDLL(None)
SET_DEATH_SIGNAL = 1  # of prctl
# Removes a folder when nobody holds its input any more, as when the process that made the folder
# was killed. What that had started may write there for a moment.
REMOVES = """cat >/dev/null
for each in 1 2 3 4 5 6 7 8 9 10; do
    rm -rf -- "$1" && break
    sleep 0.2
done
"""


def ends_with_parent(number: int = signal.SIGTERM) -> Callable[[], None]:
    """What a new process does first, so that the end of this one sends it a signal."""
    parent = os.getpid()

    def begin() -> None:
        LIBC.prctl(SET_DEATH_SIGNAL, number)
        if os.getppid() != parent:
            os._exit(1)

    return begin


@contextmanager
def temporary_folder(prefix: str, place: Path | None = None) -> Iterator[Path]:
    """A folder whose name begins so, there or where temporary files are, and that is gone after
    the block, also if this process is killed in it."""
    folder, guard = "", None
    try:
        with uninterrupted():
            folder = tempfile.mkdtemp(prefix=prefix, dir=place)
            guard = subprocess.Popen(
                ["/bin/sh", "-c", REMOVES, "guard", folder],
                stdin=subprocess.PIPE,
                cwd="/",
                stdout=subprocess.DEVNULL,
                stderr=subprocess.DEVNULL,
                start_new_session=True,
            )
        yield Path(folder)
    finally:
        if guard is not None:
            guard.communicate()
        elif folder:
            os.rmdir(folder)
