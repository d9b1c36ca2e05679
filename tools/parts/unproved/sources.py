"""What is compiled without a proof: the program, and the archive of the library for C. Each comes
from the sources of a crate and of all crates below it."""

from __future__ import annotations

import hashlib
import os
from dataclasses import dataclass
from pathlib import Path
from typing import Iterator

from parts.command import Fault
from parts.crate_graph import below, read_crates

ROOT = Path(__file__).resolve().parents[3]
CRATES = "crates.txt"
# What decides on the result beside the sources and the toolchain.
COMPILING = (ROOT / "tools/compile_unproved", Path(__file__).parent)
SUM_DIGITS = 32


@dataclass(frozen=True)
class Kind:
    word: str
    crate: str
    made: str  # the file
    proved_by: str


PROGRAM = Kind("program", "papi", "papi", "cd crates/papi && rt run -- papi_soak 1")
LIBRARY = Kind("library", "papi_c", "libpapi_c.a", "cd crates/papi_c && rt lib")
KINDS = {kind.word: kind for kind in (PROGRAM, LIBRARY)}


@dataclass(frozen=True)
class Sources:
    """The texts as they were when they were read, by their places in the repository."""

    texts: dict[str, bytes]

    def checksum(self, toolchain: bytes) -> str:
        """Of all that decides on what is made."""
        total = hashlib.sha256(toolchain)
        for name, text in [*self.texts.items(), *_own_texts()]:
            total.update(f"\0{name}\0{len(text)}\0".encode())
            total.update(text)
        return total.hexdigest()[:SUM_DIGITS]

    def write(self, folder: Path) -> None:
        for name, text in self.texts.items():
            path = folder / name
            path.parent.mkdir(parents=True, exist_ok=True)
            path.write_bytes(text)


def read_sources(kind: Kind) -> Sources:
    """The lines of the list of crates that are needed, and the sources. Proofs and specifications
    do not change what the code does."""
    crates = read_crates(ROOT / CRATES)
    if kind.crate not in crates:
        raise Fault(f"{CRATES} has no crate {kind.crate}")
    names = {kind.crate, *below(crates)[kind.crate]}
    lines = (ROOT / CRATES).read_text(encoding="utf-8").splitlines(keepends=True)
    needed = [line for line in lines if names.intersection(line.partition(":")[0].split()[:1])]
    texts = {CRATES: "".join(needed).encode()}
    for name in sorted(names):
        for path in _files(ROOT / "crates" / name / "src", ".rt"):
            texts[str(path.relative_to(ROOT))] = path.read_bytes()
    return Sources(texts)


def _files(folder: Path, ending: str) -> Iterator[Path]:
    for place, folders, names in os.walk(folder):
        folders.sort()
        yield from (Path(place, name) for name in sorted(names) if name.endswith(ending))


def _own_texts() -> Iterator[tuple[str, bytes]]:
    for place in COMPILING:
        for path in [place] if place.is_file() else _files(place, ".py"):
            yield path.name, path.read_bytes()
