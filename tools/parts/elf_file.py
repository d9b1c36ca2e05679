"""What a program file for x86-64 says of itself, and the libraries that its loader would find,
without running anything."""

from __future__ import annotations

import os
import struct
from dataclasses import dataclass, field
from pathlib import Path
from typing import BinaryIO, Iterator, Mapping

from formats.files import Unread, opened

# The head: its mark, its kind, the machine, where it begins, where the tables of its parts and of
# its sections are, the size of a row of each and how many there are. A row of a part: its kind, its
# place in the file, its address, its size; of a section: its kind, its flags, its place, its size,
# the section of its names. A symbol: its name's place, its kind, its section, its address, its
# size.
MARK = b"\x7fELF\x02\x01"
HEAD = struct.Struct("<6s10xHH4xQQQ6xHHHH2x")
PART = struct.Struct("<I4xQQ8xQ")
SECTION = struct.Struct("<4xIQ8xQQI20x")
SYMBOL = struct.Struct("<IBxHQQ")
X86_64 = 62
SHARED_OBJECT = 3  # loaded anywhere, its addresses count from 0
SYMBOLS, EXECUTED = 2, 4  # a kind of section, and a flag
# kinds of symbols: none is said, a function, one that is chosen when the program is loaded
OF_FUNCTIONS = (0, 2, 10)
LOADED, DYNAMIC, LOADER = 1, 2, 3
MOST_PLACE = (1 << 63) - 1  # in a file
MOST_BYTES = 1 << 20  # of a part that is read
MOST_SYMBOL_BYTES = 1 << 28  # of a table of symbols, and of their names
NEEDED, STRINGS, STRINGS_SIZE, OLD_PATH, PATH = 1, 5, 10, 15, 29
ENTRY = struct.Struct("<qQ")
USUAL_FOLDERS = (
    "/lib/x86_64-linux-gnu",
    "/usr/lib/x86_64-linux-gnu",
    "/lib64",
    "/usr/lib64",
    "/lib",
    "/usr/lib",
)
MUSL_FOLDERS = ("/lib", "/usr/local/lib", "/usr/lib")
# The list of libraries that ldconfig makes: a head with how many there are, and for each where its
# name and its path stand.
CACHE = Path("/etc/ld.so.cache")
CACHE_MARK = b"glibc-ld.so.cache1.1"
CACHE_HEAD = struct.Struct("<20sI24x")
CACHE_ROW = struct.Struct("<IIIIQ")


@dataclass(frozen=True)
class ElfHead:
    """The head of a file for a machine of 64 bits."""

    kind: int
    machine: int
    entry: int
    parts_at: int
    sections_at: int
    part_size: int
    parts: int
    section_size: int
    sections: int

    @classmethod
    def read(cls, file: BinaryIO) -> ElfHead | None:
        content = file.read(HEAD.size)
        if len(content) < HEAD.size or not content.startswith(MARK):
            return None
        return cls(*HEAD.unpack(content)[1:])


@dataclass(frozen=True)
class Function:
    """A function of a program file: its address there, and how many bytes it has."""

    name: str
    address: int
    size: int


@dataclass(frozen=True)
class ElfFile:
    path: Path
    loader: str = ""  # empty if it is static, or a library
    needed: tuple[str, ...] = ()
    paths: tuple[str, ...] = ()  # folders before those of the environment
    late_paths: tuple[str, ...] = ()  # behind them


@dataclass
class _Parts:
    loader: str = ""
    segments: list[tuple[int, int, int]] = field(default_factory=list)  # place, address, size
    dynamic: bytes = b""


def read_elf(path: Path) -> ElfFile | None:
    """What a file says, or None if it is no program or library for x86-64."""
    try:
        with opened(path) as file:
            return _read(path, file)
    except (OSError, Unread, struct.error, UnicodeError):
        return None


def _read(path: Path, file: BinaryIO) -> ElfFile | None:
    head = ElfHead.read(file)
    if head is None or head.machine != X86_64 or head.part_size < PART.size:
        return None
    parts = _Parts()
    for number in range(head.parts):
        row = _content(file, head.parts_at + number * head.part_size, PART.size)
        kind, place, address, length = PART.unpack(row)
        if kind == LOADED:
            parts.segments.append((place, address, length))
        elif kind in (DYNAMIC, LOADER):
            content = _content(file, place, length)
            if kind == LOADER:
                parts.loader = os.fsdecode(content.rstrip(b"\0"))
            else:
                parts.dynamic = content
    return _with_names(path, file, parts)


def _content(file: BinaryIO, place: int, length: int, most: int = MOST_BYTES) -> bytes:
    if place > MOST_PLACE:
        return b""
    file.seek(place)
    return file.read(min(length, most))


def symbols_of(file: BinaryIO, head: ElfHead) -> Iterator[Function]:
    """The functions among a file's symbols, whatever bytes their names have."""
    size = max(head.section_size, SECTION.size)
    table = _content(file, head.sections_at, head.sections * size)
    sections: list[tuple[int, int, int, int, int]] = [
        SECTION.unpack_from(table, at) for at in range(0, len(table) - SECTION.size + 1, size)
    ]
    for kind, _, place, length, link in sections:
        if kind == SYMBOLS and link < len(sections):
            content = _content(file, place, length, MOST_SYMBOL_BYTES)
            names = _content(file, *sections[link][2:4], MOST_SYMBOL_BYTES)
            for row in SYMBOL.iter_unpack(content[: len(content) // SYMBOL.size * SYMBOL.size]):
                name_at, info, section, address, bytes_of_it = row
                is_code = 0 < section < len(sections) and sections[section][1] & EXECUTED
                if is_code and info & 15 in OF_FUNCTIONS and bytes_of_it:
                    end = max(names.find(b"\0", name_at), name_at)
                    yield Function(os.fsdecode(names[name_at:end]), address, bytes_of_it)


def _with_names(path: Path, file: BinaryIO, parts: _Parts) -> ElfFile:
    whole = len(parts.dynamic) // ENTRY.size * ENTRY.size
    entries: list[tuple[int, int]] = [
        (tag, value) for tag, value in ENTRY.iter_unpack(parts.dynamic[:whole])
    ]
    values = dict(entries)
    text = b""
    for place, address, length in parts.segments:
        if address <= values.get(STRINGS, -1) < address + length:
            text = _content(file, place + values[STRINGS] - address, values.get(STRINGS_SIZE, 0))
    names = {
        tag: [os.fsdecode(text[at : text.find(b"\0", at)]) for each, at in entries if each == tag]
        for tag in (NEEDED, OLD_PATH, PATH)
    }
    folders = {
        tag: tuple(
            _own_folders(path, name) for found in names[tag] for name in found.split(":") if name
        )
        for tag in (OLD_PATH, PATH)
    }
    return ElfFile(
        path,
        parts.loader,
        tuple(names[NEEDED]),
        () if names[PATH] else folders[OLD_PATH],
        folders[PATH],
    )


def _own_folders(path: Path, folder: str) -> str:
    origin = str(path.resolve().parent)
    return folder.replace("$ORIGIN", origin).replace("${ORIGIN}", origin)


def _cached() -> dict[str, list[str]]:
    """The paths of libraries by their names, as ldconfig left them, also of those for other
    machines."""
    try:
        content = CACHE.read_bytes()
        start = content.index(CACHE_MARK)
        _, count = CACHE_HEAD.unpack_from(content, start)
        rows = (
            CACHE_ROW.unpack_from(content, start + CACHE_HEAD.size + number * CACHE_ROW.size)
            for number in range(count)
        )
        found: dict[str, list[str]] = {}
        for _, name_at, path_at, _, _ in rows:
            name, place = (
                os.fsdecode(content[start + at : content.index(b"\0", start + at)])
                for at in (name_at, path_at)
            )
            found.setdefault(name, []).append(place)
        return found
    except (OSError, ValueError, struct.error):
        return {}


class _Search:
    """How a program's loader looks for libraries."""

    def __init__(self, program: ElfFile, environment: Mapping[str, str]):
        self.program = program
        self.is_musl = "ld-musl" in program.loader
        self.given = tuple(
            filter(None, environment.get("LD_LIBRARY_PATH", "").replace(";", ":").split(":"))
        )
        self.cached: dict[str, list[str]] | None = None

    def find(self, name: str, by: ElfFile) -> ElfFile | None:
        if "/" in name:
            return read_elf(Path(name))
        for folder in (
            *by.paths,
            *(self.program.paths if not by.late_paths else ()),
            *self.given,
            *by.late_paths,
        ):
            if (found := read_elf(Path(folder) / name)) is not None:
                return found
        if self.cached is None:
            self.cached = {} if self.is_musl else _cached()
        places = (
            *map(Path, self.cached.get(name, ())),
            *(Path(folder) / name for folder in (MUSL_FOLDERS if self.is_musl else USUAL_FOLDERS)),
        )
        return next(filter(None, map(read_elf, places)), None)


def libraries_of(program: Path, environment: Mapping[str, str]) -> Iterator[ElfFile]:
    """The program, and each library that its loader would find for it and for those libraries. What
    is not found is left out."""
    first = read_elf(program)
    if first is None:
        return
    yield first
    search, waiting, seen = (
        _Search(first, environment),
        [(name, first) for name in first.needed],
        set[str](),
    )
    while waiting:
        name, by = waiting.pop(0)
        found = None if name in seen else search.find(name, by)
        seen.add(name)
        if found is not None:
            yield found
            waiting += [(needed, found) for needed in found.needed]
