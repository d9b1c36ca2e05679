"""The C compiler, as CC has it."""

from __future__ import annotations

import os
import signal
import subprocess
from contextlib import suppress
from typing import Any, Sequence

from parts.command import Fault, heed_signal, uninterrupted
from parts.started import ends_with_parent

ENDING_SECONDS = 2


def compiler() -> list[str]:
    """The words that CC has for it, or cc."""
    return os.environ.get("CC", "").split() or ["cc"]


def run_group(
    command: Sequence[str], number: int = signal.SIGTERM, text: str = "", **how: Any
) -> subprocess.CompletedProcess[str]:
    """A command with this standard input, and what it says. What it has started ends with it,
    whatever ends it, and the signal ends it if this process is killed. `how` goes to
    subprocess.Popen."""
    child: subprocess.Popen[str] | None = None
    try:
        with uninterrupted():
            child = subprocess.Popen(
                command, stdin=subprocess.PIPE, stdout=subprocess.PIPE, stderr=subprocess.PIPE,
                text=True, encoding="utf-8", errors="replace", start_new_session=True,
                preexec_fn=ends_with_parent(number), **how,
            )
        out, err = child.communicate(text)
    except BaseException:
        if child is not None:
            _end(child)
        raise
    heed_signal(child.returncode)
    return subprocess.CompletedProcess(command, child.returncode, out, err)


def run_compiler(*words: str, text: str = "") -> subprocess.CompletedProcess[str]:
    """The compiler with these words and this standard input, and what it says. A fault if it can't
    be run."""
    command = [*compiler(), *words]
    try:
        return run_group(command, text=text)
    except OSError as error:
        raise Fault(f"no C compiler: {command[0]}: {error.strerror}") from None


def _end(child: subprocess.Popen[str]) -> None:
    """Ends a command and what it has started. At first they may remove what they have made. Nothing
    is read any more: what was interrupted may have begun with that."""
    for number in (signal.SIGTERM, signal.SIGKILL):
        with suppress(ProcessLookupError, subprocess.TimeoutExpired):
            os.killpg(child.pid, number)
            child.wait(ENDING_SECONDS)
            break
    child.wait()
    for stream in (child.stdin, child.stdout, child.stderr):
        with suppress(OSError):
            if stream is not None:
                stream.close()


def cause(text: str) -> str:
    """The first line of what a compiler says that tells of an error, or else its first line."""
    lines = text.strip().splitlines() or [""]
    return next((line for line in lines if "error" in line), lines[0])
