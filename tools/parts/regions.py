"""Regions of files: lines between two marks, which a program of tools/ writes. A file may have
several, each with a name then."""

from __future__ import annotations

import re
import textwrap
from pathlib import Path

from parts.command import Fault, is_text_of
from parts.usage import ROOT


def with_region(name: str, text: str, maker: str, lines: list[str], part: str = "") -> str:
    """The text of a file with these lines between the marks of a maker, or of the part that has
    this name there."""
    old = text.split("\n")
    mark = re.compile(rf"{re.escape(maker)}: (begin(?: \w+)?|end)\b")
    found = [(place, match[1]) for place, line in enumerate(old) if (match := mark.search(line))]
    begin = f"begin {part}".strip()
    at = [number for number, (_, kind) in enumerate(found) if kind == begin]
    kinds = ["end" if kind == "end" else "begin" for _, kind in found]
    if len(at) != 1 or kinds != ["begin", "end"] * (len(kinds) // 2):
        raise Fault(f"{name}: the marks of {maker} do not stand once each")
    first, last = found[at[0]][0], found[at[0] + 1][0]
    between = ["", *lines, ""] if Path(name).suffix == ".md" else lines
    return "\n".join([*old[: first + 1], *between, *old[last:]])


def write_all(maker: str, texts: dict[str, str], *, check: bool) -> None:
    """Writes each file that does not have its text, or says which do not. A script may be run."""
    old = [name for name, text in texts.items() if not is_text_of(ROOT / name, text)]
    if old and check:
        raise Fault(f"out of date: {', '.join(old)} ({maker} writes them)")
    for name in old:
        (ROOT / name).parent.mkdir(parents=True, exist_ok=True)
        (ROOT / name).write_text(texts[name], encoding="utf-8")
        if texts[name].startswith("#!"):
            (ROOT / name).chmod(0o755)


def filled(words: list[str], width: int, indent: str = "    ") -> list[str]:
    """The words, as many on a line as fit."""
    return textwrap.wrap(
        " ".join(words), width, initial_indent=indent, subsequent_indent=indent,
        break_long_words=False, break_on_hyphens=False,
    )
