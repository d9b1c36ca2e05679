"""The steps from the sources to a program or an archive at the optimisation of a proved build."""

from __future__ import annotations

import os
import signal
import time
from contextlib import contextmanager, suppress
from pathlib import Path
from types import FrameType
from typing import IO, Iterator

from parts.unproved.children import refusal, run
from parts.unproved.exported import as_program, exported_functions
from parts.unproved.inline_marks import InlineMarks
from parts.unproved.module_text import PROCESSOR, with_c_names, without_checks
from parts.unproved.sources import LIBRARY, PROGRAM, Kind, Sources
from parts.unproved.toolchain import Kit, Module, front_end

TOLD_EVERY = 8.0  # seconds
TARGET = "x86_64-unknown-linux-gnu"
OPTIMISED = (f"-march={PROCESSOR}", "-O3", "-fno-vectorize", "-fno-slp-vectorize")
POSITION = {PROGRAM: "-fPIE", LIBRARY: "-fPIC"}
READABLE = ("--no-default-config", "-S", "-emit-llvm", "-O0", "-Xclang", "-disable-llvm-passes")
BESIDE = ("libos_c.a", "liblibc_c.a")  # what a program is linked with


class Told:
    """What is being done. A clock says it on standard error every few seconds, whatever the process
    does meanwhile."""

    def __init__(self, what: str):
        self._what = what
        self._began = time.monotonic()
        self.step = ""

    def tell(self, number: int = 0, frame: FrameType | None = None) -> None:
        seconds = time.monotonic() - self._began
        with suppress(OSError):
            os.write(2, f"{self._what}: {self.step}, {seconds:.0f} s\n".encode())


@contextmanager
def telling(what: str) -> Iterator[Told]:
    told = Told(what)
    before = signal.signal(signal.SIGALRM, told.tell)
    signal.setitimer(signal.ITIMER_REAL, TOLD_EVERY, TOLD_EVERY)
    try:
        yield told
    finally:
        signal.setitimer(signal.ITIMER_REAL, 0)
        signal.signal(signal.SIGALRM, before)


def compile_unproved(
    kind: Kind, sources: Sources, kit: Kit, folder: Path, made: Path, told: Told
) -> None:
    """Makes the program or archive at its place, and all else in the folder."""
    told.step = "front end"
    tree = folder / "tree"
    (as_program(sources) if kind is LIBRARY else sources).write(tree)
    module = front_end(kit, tree / "crates" / kind.crate, folder)
    told.step = "checks taken out"
    text = _module_text(kind, sources, kit, module, folder)
    told.step = "optimiser"
    built = folder / f"{kind.crate}.o"
    words = [word for word in module.words if not word.endswith((".bc", ".o")) and word != "-o"]
    words += [str(text), "-o", str(built), POSITION[kind], *OPTIMISED]
    _make(built, [kit.clang(), *words], folder)
    text.unlink()
    told.step = "linker"
    _make(made, _last_words(kind, kit, built, made), folder)


def _module_text(kind: Kind, sources: Sources, kit: Kit, module: Module, folder: Path) -> Path:
    readable, text = folder / "readable.ll", folder / f"{kind.crate}.ll"
    words = [f"--target={TARGET}", *READABLE, "-x", "ir", str(module.path), "-o", str(readable)]
    _make(readable, [kit.clang(), *words], folder)
    module.path.unlink()
    marks = InlineMarks(module.roots)
    with _opened(readable, "r") as lines, _opened(text, "w") as plain:
        kept = without_checks(lines, marks.of)
        if kind is LIBRARY:
            kept = with_c_names(kept, exported_functions(sources))
        plain.writelines(kept)
    readable.unlink()
    return text


def _opened(path: Path, mode: str) -> IO[str]:
    """A text, of which each byte stays as it is."""
    return open(path, mode, encoding="latin-1", newline="\n")


def _last_words(kind: Kind, kit: Kit, built: Path, made: Path) -> list[str]:
    toolchain = kit.folder / "toolchain"
    if kind is LIBRARY:
        return [str(toolchain / "bin/llvm-ar"), "rcs", str(made), str(built)]
    words = ["--target", TARGET, "--toolchain", str(toolchain), "-o", str(made), str(built)]
    libraries = [str(kit.folder / "c" / name) for name in BESIDE]
    return [str(kit.folder / "bin/rattle-link"), *words, *libraries]


def _make(made: Path, words: list[str], folder: Path) -> None:
    said = run(words, folder, cwd=folder)
    if not made.exists():
        raise refusal(said)
