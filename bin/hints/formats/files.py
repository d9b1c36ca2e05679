"""The files that words, tables, programs and folders name: regular ones alone, as far as they are
not too large. The lines of scripts and streams and the rows of tables, with their numbers
(docs/FORMATS.md)."""

from __future__ import annotations

import os
import re
import stat
from dataclasses import dataclass
from itertools import islice
from typing import BinaryIO

BYTE_ORDER_MARK = b"\xef\xbb\xbf"
# A comment ends at a newline alone, all else at a newline or a carriage return.
TABLE_LINE = re.compile(rb"#[^\n]*|[^\r\n]+")
LONGEST_LINE = 1 << 16
MOST_BYTES = 1 << 27  # of a file that is read as a whole


class Unread(Exception):
    """A file that is not regular, or is too large, as the text says."""


@dataclass(frozen=True)
class Row:
    """A row of a table with the number of its line."""

    line: int
    text: str

    def fields(self) -> list[str]:
        return [field.strip(" \t") for field in self.text.split(",")]

    def is_skipped(self) -> bool:
        first = self.fields()[0]
        return not first or first.startswith("#")


def read_rows(content: bytes) -> list[Row]:
    """All rows of a table: its lines without the blank ones and those that begin with `#`."""
    content = content.removeprefix(BYTE_ORDER_MARK)
    rows = []
    line, last = 1, 0
    for match in TABLE_LINE.finditer(content):
        line += len(re.findall(rb"\r\n|\n|\r", content[last : match.start()]))
        last = match.end()
        if match[0].startswith(b"#"):
            line += match[0].rstrip(b"\r").count(b"\r")
        else:
            rows.append(Row(line, match[0].decode("utf-8", "surrogateescape")))
    return rows


def read_table(name: str) -> list[Row]:
    return read_rows(content(name))


def read_lines(name: str) -> list[str]:
    """The lines of a script. A carriage return before a newline is dropped."""
    *lines, last = content(name).decode("utf-8", "surrogateescape").split("\n")
    return [line.removesuffix("\r") for line in lines] + [last]


def line_of(name: str, number: int) -> tuple[str, bool]:
    """A line of a stream, and whether the stream has stamps."""
    with opened(name) as file:
        first = file.readline(LONGEST_LINE)
        file.seek(0)
        found = next(islice(file, number - 1, number), b"")
    text = found[:-1].removesuffix(b"\r") if found.endswith(b"\n") else found
    return text.decode("utf-8", "surrogateescape"), first.rstrip(b"\r\n") == b"version 2"


def opened(name: str | os.PathLike[str]) -> BinaryIO:
    """A regular file. Nothing waits for the writer of a fifo, and no device is asked anything."""
    try:
        number = os.open(name, os.O_RDONLY | os.O_NONBLOCK | os.O_NOCTTY | os.O_CLOEXEC)
    except ValueError:  # a byte that no name has
        raise Unread(f"{name!r}: no name of a file") from None
    if not stat.S_ISREG(os.fstat(number).st_mode):
        os.close(number)
        raise Unread(f"{os.fspath(name)}: not a regular file")
    return open(number, "rb")


def content(name: str | os.PathLike[str], most: int = MOST_BYTES) -> bytes:
    """What a regular file of at most so many bytes has."""
    with opened(name) as file:
        found = file.read(most + 1)
    if len(found) > most:
        raise Unread(f"{os.fspath(name)}: too large")
    return found
