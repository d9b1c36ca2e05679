"""The words that a tool takes, as the first line of its usage text says, with what the lines below
it say of each word."""

from __future__ import annotations

import re
from dataclasses import dataclass
from pathlib import Path

from .texts import near

USAGE = Path(__file__).resolve().parents[2] / "usage"
CALL = re.compile(r"  ([a-z]+)\b.*?  ")
RANGE = re.compile(r"\b([0-9]+) to ([0-9]+)\b")


@dataclass(frozen=True)
class Option:
    """`-U UNIT` or `--notes`."""

    word: str
    value: str  # `UNIT`, or empty for one without a value
    is_needed: bool
    partner: str  # the option that it goes with, or empty
    meaning: str

    def text(self) -> str:
        return f"{self.word} {self.value}".rstrip()


@dataclass(frozen=True)
class Place:
    """A word that is no option: `SCRIPT`, `[STREAM..]`."""

    name: str
    least: int
    most: int
    meaning: str


@dataclass(frozen=True)
class Form:
    tool: str
    options: dict[str, Option]
    places: tuple[Place, ...]

    @classmethod
    def of(cls, tool: str) -> Form | None:
        """The form of a tool, or none if there is no such tool."""
        path = USAGE / tool
        if not re.fullmatch(r"papi_\w+", tool) or not path.is_file():
            return None
        head, *lines = path.read_text(encoding="utf-8").splitlines()
        meanings = dict(
            re.split(r"  +", line.strip(), maxsplit=1) for line in lines
            if re.match(r"  \S.*\S  +\S", line)
        )
        options: dict[str, Option] = {}
        places = []
        for part in re.findall(r"\[[^\]]*\]|-\S+(?: [A-Z]+)?|\S+", head.partition(tool)[2]):
            inner = part.strip("[]")
            if inner.startswith("-"):
                options.update(_options(inner, part == inner, meanings))
            else:
                places.append(_place(inner, part == inner, meanings))
        return cls(tool, options, tuple(places))


def _options(text: str, is_needed: bool, meanings: dict[str, str]) -> dict[str, Option]:
    found = re.findall(r"(-\S+)(?: ([A-Z]+))?", text)
    partners = {found[0][0]: found[1][0], found[1][0]: found[0][0]} if len(found) == 2 else {}
    return {
        word: Option(
            word, value, is_needed, partners.get(word, ""),
            meanings.get(f"{word} {value}".rstrip(), ""),
        )
        for word, value in found
    }


def _place(text: str, is_needed: bool, meanings: dict[str, str]) -> Place:
    meaning = meanings.get(text, "")
    limits = RANGE.search(meaning)
    most = 1
    if text.endswith(".."):
        most = int(limits[2]) if limits else 1 << 20
    return Place(text, 1 if is_needed else 0, most, meaning)


def papi_calls(tool: str) -> dict[str, str]:
    """The calls of a tool's scripts by the names that they have in PAPI."""
    found: dict[str, str] = {}
    for line in (USAGE / tool).read_text(encoding="utf-8").splitlines():
        if (call := CALL.match(line)) and (names := re.search(r"\((PAPI_[^)]*)\)$", line)):
            found.update(dict.fromkeys(names[1].split(", "), call[1]))
    return found


def limits_of(meaning: str) -> tuple[int, int] | None:
    """The range of a number, `1 to 64`, as the meaning of its word says it."""
    found = RANGE.search(meaning)
    return (int(found[1]), int(found[2])) if found else None


def near_tools(tool: str) -> str:
    return near(tool, sorted(path.name for path in USAGE.glob("papi_*")))
