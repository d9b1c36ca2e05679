"""Our own tool of Valgrind (tools/valgrind), which counts a program while it runs. It is built when
it is used first, and kept in the user's folder for caches under a checksum of its text and of what
Valgrind there is."""

from __future__ import annotations

import hashlib
import os
import shutil
import tempfile
from pathlib import Path
from typing import Mapping

from parts.command import Fault
from parts.compiler import run_group

SOURCES = Path(__file__).resolve().parent.parent / "valgrind"
# Where distributions put what Valgrind's own launcher and tools take.
FOLDERS = (
    "/usr/libexec/valgrind", "/usr/lib/x86_64-linux-gnu/valgrind", "/usr/lib64/valgrind",
    "/usr/lib/valgrind", "/usr/local/libexec/valgrind", "/usr/local/lib/valgrind",
)
PRELOAD = "vgpreload_core-amd64-linux.so"
NAME = "kistalub"
HINT = "(apt-get install valgrind)"

MOST_THREADS = 2500  # at one time, and one more than there may be
STACK_ROOM = 1 << 16
FOLDER_ROOM = 1 << 10
POINTER = 8
PADDING = "KISTALUB_PADDING"
LEAST_PADDING = 16  # the tool takes its first bytes in place of the system's random ones


def cache_folder() -> Path:
    """Where the tool is kept. It is made if it is not there."""
    home = os.environ.get("XDG_CACHE_HOME") or os.path.join(os.path.expanduser("~"), ".cache")
    folder = Path(home) / "kistalub"
    try:
        folder.mkdir(parents=True, exist_ok=True)
    except OSError as error:
        raise Fault(f"{folder}: {error.strerror} (XDG_CACHE_HOME names another folder)") from None
    return folder


def _version() -> str:
    """What another Valgrind would have otherwise: its launcher, and one of its tools."""
    launcher = shutil.which("valgrind")
    if launcher is None:
        raise Fault(f"valgrind is not installed {HINT}")
    return "\n".join(
        f"{os.path.realpath(file)} {os.stat(file).st_size} {os.stat(file).st_mtime_ns}"
        for file in (launcher, str(folder() / "none-amd64-linux"))
    )


def tool() -> Path:
    """The tool, built if it is not there yet. Of two processes that build it at once each does, and
    the last one's is kept."""
    sources = [SOURCES / "build", *sorted(SOURCES.glob("*.[ch]"))]
    text = b"\0".join([_version().encode(), *(source.read_bytes() for source in sources)])
    program = (
        cache_folder() / f"valgrind-{hashlib.sha256(text).hexdigest()[:32]}" / f"{NAME}-amd64-linux"
    )
    if not program.exists():
        program.parent.mkdir(exist_ok=True)
        done = run_group(["/bin/sh", str(SOURCES / "build"), str(program)])
        if done.returncode:
            raise Fault(
                done.stderr.strip()
                or f"the tool of Valgrind can't be built: status {done.returncode}"
            )
    return program


def folder() -> Path:
    """Where Valgrind's own tools are."""
    for place in map(Path, FOLDERS):
        if (place / PRELOAD).is_file() and (place / "none-amd64-linux").is_file():
            return place
    raise Fault(f"{PRELOAD} of valgrind is in none of {', '.join(FOLDERS)} {HINT}")


def _own_folder() -> Path:
    """Where Valgrind finds the tool beside what its own tools take, also for the programs that a
    program starts."""
    own = tool().parent
    others = folder()
    for file in (*others.glob("vgpreload_core-*"), *others.glob("*.supp"), *others.glob("*.xml")):
        link = own / file.name
        if not link.exists():
            made = own / f"{file.name}.{os.getpid()}"
            made.symlink_to(file)
            made.replace(link)
    return own


def command(words: list[str], program: str, arguments: list[str]) -> list[str]:
    """What starts a program under the tool, with the tool's own words. Threads run one after the
    other: one that waits for another lets each run before it goes on."""
    return [
        str(tool()), f"--tool={NAME}", "--quiet", "--vgdb=no", "--fair-sched=try",
        f"--max-threads={MOST_THREADS}", "--sigill-diagnostics=no", *words, "--", program,
        *arguments,
    ]


def of_one_length(folder: str) -> str:
    """A folder's path with as many slashes behind it as make its length a multiple of 1,024. The
    system's loader keeps such paths in memory, and what comes behind them would move."""
    return folder + "/" * (-len(os.fsencode(folder)) % FOLDER_ROOM)


def environment(words: list[str], changes: Mapping[str, str]) -> dict[str, str]:
    """This process's environment with these changes, for a program with these words, and what
    Valgrind's core wants to find there. A variable is as long as it takes for the program's stack
    to begin at the same place whatever else is in the environment: words and variables stand
    above."""
    whole = {
        **os.environ,
        **changes,
        "VALGRIND_LIB": of_one_length(str(_own_folder())),
        "VALGRIND_LAUNCHER": shutil.which("valgrind") or "valgrind",
    }
    whole.pop(PADDING, None)
    strings = [os.fsencode(word) for word in words] + [
        os.fsencode(f"{name}={value}") for name, value in whole.items()
    ]
    size = sum(len(string) + 1 + POINTER for string in strings) + len(PADDING) + 2 + POINTER
    size += len(os.fsencode(words[0])) + 1  # the program's path stands there once more
    return {**whole, PADDING: "." * (LEAST_PADDING + -(size + LEAST_PADDING) % STACK_ROOM)}


def check_temporary_folder() -> None:
    """Valgrind keeps small files there for a moment, and says little if it can't."""
    place = os.environ.get("TMPDIR") or "/tmp"
    try:
        with tempfile.TemporaryFile(dir=place) as file:
            file.write(b"." * 4096)
    except OSError as error:
        raise Fault(f"{place}: {error.strerror} (TMPDIR names another folder)") from None
