"""The processes of a compilation."""

from __future__ import annotations

import errno
import os
import signal
from pathlib import Path
from typing import Sequence

from parts.command import Fault, pass_on
from parts.compiler import run_group


def run(words: Sequence[str], folder: Path, cwd: Path) -> str:
    """What a program says, which leaves files of its own in the folder, takes no input, and ends
    with this process. It may fail: what it makes is there, or is not."""
    temporary = folder / "temporary"
    temporary.mkdir(exist_ok=True)
    environment = {**os.environ, "TMPDIR": str(temporary)}
    try:
        done = run_group(words, signal.SIGKILL, cwd=cwd, env=environment)
    except OSError as error:
        raise Fault(f"{words[0]}: {error.strerror}") from None
    said = (done.stdout + done.stderr).strip()
    if os.strerror(errno.ENOSPC) in said:
        raise Fault(f"{folder.parent}: {os.strerror(errno.ENOSPC)}")
    return said


def refusal(said: str) -> Fault:
    """What ends a compilation of which a program has said this."""
    if said:
        pass_on(said.splitlines())
    return Fault("the code can't be compiled unproved")
