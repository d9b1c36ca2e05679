"""Lines of C, Python and shell that are too wide. What is written as a text of several lines in
Python is as wide as it has to be: a page, a picture, or a program that is compiled."""

from __future__ import annotations

import io
import re
import tokenize
from pathlib import Path
from typing import Iterator

MOST_COLUMNS = 100
FOLDERS = (".ci", "bench", "bin", "c", "checks", "examples/c", "include", "python", "tools")
SUFFIXES = (".c", ".cc", ".h", ".py", ".sh")
SCRIPT = re.compile(r"#!.*\b(python3|sh|bash)\b")
# The files that are not looked at, and why.
LEFT_OUT = {
    "include/f77papi.h": "made, in the fixed form of Fortran too",
    "include/f90papi.h": "made, for Fortran",
    "include/fpapi.h": "made, for Fortran",
    "examples/c/first.c": "docs/FIRST_STEPS.md shows it",
    "examples/c/overflow.c": "docs/PROFILER.md shows it",
    "examples/c/profil.c": "docs/PROFILER.md shows it",
}
BEFORE_STATEMENT = (tokenize.NEWLINE, tokenize.INDENT, tokenize.DEDENT, tokenize.ENCODING)
UNSEEN = (tokenize.COMMENT, tokenize.NL)


def is_python(path: Path, first: str) -> bool:
    return path.suffix == ".py" or "python3" in first


def sources(root: Path) -> Iterator[tuple[Path, str]]:
    """The files of these languages, with their text."""
    for folder in FOLDERS:
        for path in sorted((root / folder).rglob("*")):
            if path.suffix not in (*SUFFIXES, "") or not path.is_file() or path.is_symlink():
                continue
            if "__pycache__" in path.parts or path.relative_to(root).as_posix() in LEFT_OUT:
                continue
            text = path.read_text(encoding="utf-8", errors="replace")
            if path.suffix or SCRIPT.match(text):
                yield path, text


def text_lines(content: str) -> set[int]:
    """The lines of a source of Python on which a text of several lines stands, but for those that
    say what a module, a class or a function is."""
    found: set[int] = set()
    begun: list[int] = []  # of texts with values in them, since Python 3.12
    before = tokenize.ENCODING
    for token in tokenize.generate_tokens(io.StringIO(content).readline):
        name = tokenize.tok_name[token.type]
        first = token.start[0]
        if name == "FSTRING_START":
            begun.append(first)
        if name == "FSTRING_END":
            first = begun.pop()
        if name in ("STRING", "FSTRING_END") and token.end[0] > first:
            is_said = name == "STRING" and before in BEFORE_STATEMENT
            found |= set() if is_said else set(range(first, token.end[0] + 1))
        if token.type not in UNSEEN:
            before = token.type
    return found


def wide_lines(path: Path, content: str) -> list[tuple[int, str]]:
    """The lines of a file that are too wide, each with what is said of it."""
    lines = content.splitlines()
    wide = [number for number, line in enumerate(lines, 1) if len(line) > MOST_COLUMNS]
    if wide and is_python(path, lines[0]):
        texts = text_lines(content)
        wide = [number for number in wide if number not in texts]
    return [(number, f"a line has {len(lines[number - 1])} columns") for number in wide]
