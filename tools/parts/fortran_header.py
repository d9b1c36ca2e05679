"""The constants of papi.h for Fortran, in the three forms in which PAPI has them, and how such a
file is read."""

from __future__ import annotations

import re
from pathlib import Path
from typing import Iterator

from parts.command import Fault, read_file

FORTRAN_HEADERS = ("f77papi.h", "f90papi.h", "fpapi.h")
LEAST = -(2**31)
MOST_COLUMNS = 72

ABOUT = {
    "f77papi.h": "The constants of papi.h for Fortran 77, in fixed and in free form.",
    "f90papi.h": "The constants of papi.h for Fortran 90.",
    "fpapi.h": "The constants of papi.h for Fortran that goes through the C preprocessor.",
}


def fortran_text(file: str, constants: dict[str, int]) -> str:
    lines = [f"! {ABOUT[file]}", "! tools/make_fortran writes this file.", ""]
    for name, value in constants.items():
        lines += lines_of(file, name, value)
    for line in lines:
        if len(line) > MOST_COLUMNS and file == "f77papi.h":
            raise Fault(f"{file}: a line has more than {MOST_COLUMNS} columns: {line}")
    return "\n".join([*lines, ""])


def lines_of(file: str, name: str, value: int) -> Iterator[str]:
    number = as_integer(value)
    if file == "f77papi.h":
        yield f"      INTEGER {name}"
        yield f"      PARAMETER ({name}={number})"
    elif file == "f90papi.h":
        yield f"      INTEGER, PARAMETER :: {name} = {number}"
    else:
        yield f"#define {name} {number}"


def as_integer(value: int) -> str:
    """The number as Fortran's default integer of 32 bits. Its least one can't be written as a
    literal."""
    if not LEAST <= value < 2**32:
        raise Fault(f"{value} has more than 32 bits")
    signed = value - 2**32 if value >= 2**31 else value
    return f"(-{2**31 - 1}-1)" if signed == LEAST else str(signed)


CONSTANT = re.compile(
    r"\s*PARAMETER\s*\(\s*(\w+)\s*=(.*)\)\s*$|\s*INTEGER\s*,\s*PARAMETER\s*::\s*(\w+)\s*=(.*)$"
    r"|#define\s+(\w+)\s+(.*)$", re.IGNORECASE
)


def read_constants(path: Path) -> dict[str, int]:
    """The constants of such a file."""
    constants: dict[str, int] = {}
    for line in read_file(str(path)).splitlines():
        found = CONSTANT.match(line)
        if found:
            name, value = (part for part in found.groups() if part is not None)
            constants[name] = difference(value)
    return constants


def difference(text: str) -> int:
    """A number, or one number less another."""
    words = re.fullmatch(r"(-?\d+)(?:-(\d+))?", re.sub(r"[()\s]", "", text))
    if not words:
        raise Fault(f"not a number: {text}")
    return int(words[1]) - int(words[2] or 0)
