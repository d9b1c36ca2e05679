"""The program papi, which a tool asks what an event counts: by bin/ of the repository, or as
bin/install has it."""

from __future__ import annotations

import subprocess
from pathlib import Path

from parts.command import Fault, heed_signal
from parts.compiler import run_group
from parts.started import ends_with_parent

FOLDER = Path(__file__).resolve().parent.parent.parent / "bin"  # an installation has links there
UNPROVED = "papi: the proved program"


def prepare_program() -> None:
    """In a repository it is compiled, if it is not there: that takes a minute or two, and says
    so."""
    script = FOLDER / "papi"
    if not script.exists():
        return
    status = subprocess.run(
        [str(script), "--compile"],
        stdin=subprocess.DEVNULL,
        stdout=subprocess.DEVNULL,
        preexec_fn=ends_with_parent(),
    ).returncode
    if status:
        heed_signal(status)
        raise Fault("the program papi, which says what an event counts, is not there")


def ask_program(tool: str, *words: str) -> subprocess.CompletedProcess[str]:
    """What a tool of the program answers to these words."""
    try:
        done = run_group([str(FOLDER / tool), *words])
    except OSError as error:
        raise Fault(f"{FOLDER / tool}: {error.strerror}") from None
    done.stderr = "".join(
        line for line in done.stderr.splitlines(keepends=True) if not line.startswith(UNPROVED)
    )
    return done


def cause_of(said: str) -> str:
    """The line of what the program says that tells what is wrong."""
    lines = [line for line in said.splitlines() if not line.startswith("hint: ")]
    return lines[0].removeprefix("papi: ") if lines else ""
