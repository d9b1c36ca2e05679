"""The library for C as c/build makes it, kept in the user's folder for caches: over the proved
archive if that is built, or else over the same code unproved."""

from __future__ import annotations

import hashlib
import os
import subprocess
from contextlib import AbstractContextManager, nullcontext, suppress
from datetime import date
from pathlib import Path

from parts.command import Fault, heed_signal, own_name, tell, uninterrupted
from parts.compiler import run_group
from parts.started import ends_with_parent
from parts.unproved.keeping import locked, put, remove_old
from parts.unproved.making import SAID_ON
from parts.unproved.sources import LIBRARY, ROOT, SUM_DIGITS
from parts.unproved.toolchain import find_kit
from parts.valgrind import cache_folder

BUILD = ROOT / "c/build"
PROVED = ROOT / "crates" / LIBRARY.crate / "out" / LIBRARY.made
SHARED = "libpapi.so.7.0"
HEAP = "KISTALUB_HEAP"
SETTINGS = ("CC", "CFLAGS", HEAP)  # of c/build


def built_library() -> Path:
    """The folder with the library. If it is not there it is built, and its archive compiled."""
    archive = PROVED if PROVED.is_file() else _unproved_archive()
    cache = cache_folder().absolute()
    folder = cache / f"library-{_checksum(archive)}"
    with locked(cache / "built.lock", _waiting):
        if not (folder / SHARED).is_file():
            put(folder, "built", lambda work, kept: _build(archive, kept))
            remove_old(cache, f"library-*/{SHARED}")
    with suppress(OSError):
        os.utime(folder)
    if archive != PROVED:
        _say_once_a_day(folder)
    return folder


def _unproved_archive() -> Path:
    speaker = f"{own_name()}: the proved library is not built"
    words = [str(ROOT / "tools/compile_unproved"), LIBRARY.word, "--speaker", speaker]
    child: subprocess.Popen[str] | None = None
    try:
        with uninterrupted():
            child = subprocess.Popen(
                words,
                stdin=subprocess.DEVNULL,
                stdout=subprocess.PIPE,
                text=True,
                preexec_fn=ends_with_parent(),
            )
        path = child.communicate()[0].rstrip("\n")
    finally:
        if child is not None:
            child.terminate()
            child.wait()
    if child.returncode:
        heed_signal(child.returncode)
        raise Fault("there is no library to count with (--library names its folder)")
    return Path(path)


def _checksum(archive: Path) -> str:
    total = hashlib.sha256(repr([os.environ.get(name) for name in SETTINGS]).encode())
    if not os.environ.get(HEAP):
        total.update(find_kit().identity())
    headers = sorted((ROOT / "include").glob("*.h"))
    for path in [archive, BUILD, *sorted(BUILD.parent.glob("*.[ch]")), *headers]:
        text = path.read_bytes()
        total.update(f"\0{path.name}\0{len(text)}\0".encode())
        total.update(text)
    return total.hexdigest()[:SUM_DIGITS]


def _build(archive: Path, kept: Path) -> None:
    done = run_group([str(BUILD), str(kept), str(archive)])
    if done.returncode:
        said, *more = done.stderr.strip().splitlines() or [
            f"c/build ended with status {done.returncode}"
        ]
        raise Fault(said, more=more)


def _waiting() -> AbstractContextManager[None]:
    tell("waiting for another command, which builds the library")
    return nullcontext()


def _say_once_a_day(folder: Path) -> None:
    today = f"{date.today()}\n"
    with suppress(OSError):
        said_on = folder / SAID_ON
        if said_on.is_file() and said_on.read_text(encoding="ascii") == today:
            return
        tell(
            "the proved library is not built: counted with the same code unproved "
            f"(it is proved by: {LIBRARY.proved_by})"
        )
        said_on.write_text(today, encoding="ascii")
