"""Lines of source for program counters, by `addr2line` of the package binutils. A program may name
any file as its source: only what can be one is read."""

from __future__ import annotations

import re
import shutil
import subprocess
from dataclasses import dataclass
from typing import Sequence

from formats.files import Unread, content
from parts.profile import Bucket
from parts.report.markup import LONGEST

MOST_BYTES = 1 << 24  # of a file of source
PATIENCE = 60  # seconds, for addr2line, which opens files that the program names
SOURCE = re.compile(r".*\.(?:c|cc|cpp|cxx|c\+\+|C|h|hh|hpp|hxx|h\+\+|inl|ipp|tcc|f|for|f77|f90|f95"
                    r"|f03|f08|F|F90|F95|F03|F08|rs|rt|go|zig|d|nim|jl|ml|hs|adb|ads|pas|m|mm|cu|s"
                    r"|S|asm|py|pyx|java|kt|swift)", re.DOTALL)
PLACE = re.compile(r"(.*):([0-9]+)(?: \(discriminator [0-9]+\))?")


@dataclass
class SourceLine:
    function: str
    file: str
    line: int
    hits: int
    text: str


def has_addr2line() -> bool:
    return shutil.which("addr2line") is not None


def places_of(program: str, base: int, addresses: Sequence[int]) -> dict[int, tuple[str, str, int]]:
    """Function, file and line of these addresses. One without a line of source is left out."""
    asked = "".join(f"{address - base:#x}\n" for address in addresses)
    try:
        done = subprocess.run(
            ["addr2line", "-f", "-C", "-e", program], input=asked, capture_output=True, text=True,
            errors="replace", timeout=PATIENCE,
        )
    except subprocess.TimeoutExpired:
        return {}
    told = done.stdout.removesuffix("\n").split("\n")
    places: dict[int, tuple[str, str, int]] = {}
    if len(told) != 2 * len(addresses):  # a name has lines of its own
        return places
    for address, function, place in zip(addresses, told[::2], told[1::2]):
        found = PLACE.fullmatch(place)
        if found is not None and found[1] != "??" and found[2] != "0":
            places[address] = function, found[1], int(found[2])
    return places


def source_lines(
    places: dict[int, tuple[str, str, int]], buckets: Sequence[Bucket]
) -> list[SourceLine]:
    """The lines of source of these buckets, the hottest first."""
    lines: dict[tuple[str, int], SourceLine] = {}
    texts: dict[str, list[str]] = {}
    for bucket in buckets:
        if bucket.address in places:
            function, file, number = places[bucket.address]
            if (file, number) not in lines:
                if file not in texts:
                    texts[file] = lines_of(file)
                text = texts[file][number - 1] if number <= len(texts[file]) else ""
                lines[file, number] = SourceLine(function, file, number, 0, text.strip()[:LONGEST])
            lines[file, number].hits += bucket.hits
    return sorted(lines.values(), key=lambda line: -line.hits)


def lines_of(file: str) -> list[str]:
    """The lines of a regular file that is named as source is, or none."""
    try:
        return (
            content(file, MOST_BYTES).decode("utf-8", "replace").split("\n")
            if SOURCE.fullmatch(file) else []
        )
    except (OSError, Unread):
        return []
