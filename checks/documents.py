"""The documents as `docs` reads them: their fenced blocks, their links, and the names of the code
that their tables give."""

from __future__ import annotations

import re
from dataclasses import dataclass, field
from functools import lru_cache
from pathlib import Path

from here import ROOT

MOST_CELL = 200
MARK = re.compile(r"<!-- (tools|checks)/\w+: (begin|end)")
NUMBER = (
    r"(?:\d[\d.,]*|half an?|one|two|three|four|five|six|seven|eight|nine|ten|twenty|thirty|fifty"
    r"|some|several)"
)
TIME = r"(?:(?:milli|micro|nano)?seconds?|minutes?|hours?|ms|ns|µs)"
SPEED = r"(?:[KMG]i?B/s|GHz|times (?:as (?:long|much|fast|slow|often)|slower|faster|longer))"
FIGURE = re.compile(
    rf"\b{NUMBER}(?:(?: to| or|-) ?{NUMBER})? ?(?:{TIME}|{SPEED})\b"
    r"|(?<!once )\ban? (?:minute|hour)\b"
    rf"|\b{NUMBER} \w+ (?:a|per) second\b"
    rf"|\b{NUMBER} (?:%|per cent) (?:slower|faster|longer)\b",
    re.IGNORECASE,
)


@dataclass(frozen=True)
class Shown:
    """A command of a `console` block, and what it prints."""

    command: str
    output: str


@dataclass
class Block:
    """A fenced block: the line where it begins, its kind, its marks (`file=NAME`, `part=NAME`,
    `needs=NAME,..`), its text, and its commands."""

    line: int
    kind: str
    marks: dict[str, str]
    text: str = ""
    examples: list[Shown] = field(default_factory=list)


def blocks_of(path: Path) -> list[Block]:
    blocks: list[Block] = []
    lines = path.read_text(encoding="utf-8").splitlines()
    number = 0
    while number < len(lines):
        if not lines[number].startswith("```"):
            number += 1
            continue
        kind, *marks = lines[number][3:].split() or [""]
        end = lines.index("```", number + 1)
        body = lines[number + 1 : end]
        block = Block(
            number + 1, kind, dict(mark.split("=", 1) for mark in marks),
            "".join(f"{line}\n" for line in body),
        )
        if kind == "console":
            block.examples = commands_in(body)
        blocks.append(block)
        number = end + 1
    return blocks


def commands_in(body: list[str]) -> list[Shown]:
    """The commands begin with `$ ` and go on with `> `. What follows is what they print."""
    commands: list[tuple[list[str], list[str]]] = []
    for line in body:
        if line.startswith("$ "):
            commands.append(([line[2:]], []))
        elif line.startswith("> ") and not commands[-1][1]:
            commands[-1][0].append(line[2:])
        else:
            commands[-1][1].append(line)
    return [
        Shown("\n".join(command), "".join(f"{line}\n" for line in output))
        for command, output in commands
    ]


def prose_of(path: Path) -> list[tuple[int, str]]:
    """The numbered lines that stand in no fenced block."""
    lines, fenced = [], False
    for number, line in enumerate(path.read_text(encoding="utf-8").splitlines(), 1):
        if line.startswith("```"):
            fenced = not fenced
        elif not fenced:
            lines.append((number, line))
    return lines


def by_hand(path: Path) -> list[tuple[int, str]]:
    """The numbered lines that are in no fenced block, and not between the marks of programs."""
    lines, is_made = [], False
    for number, line in prose_of(path):
        if MARK.match(line):
            is_made = ": begin" in line
        elif not is_made:
            lines.append((number, line))
    return lines


def words_of(path: Path) -> int:
    """How many words were written by hand, outside of code. A mark as `|` is none."""
    lines = (line for _, line in by_hand(path))
    return sum(1 for line in lines for word in line.split() if re.search(r"\w", word))


def long_cells(path: Path) -> list[tuple[int, int]]:
    """The lines with cells over MOST_CELL characters, and how many. Targets of links do not
    count."""
    found = []
    for number, line in by_hand(path):
        if line.startswith("|"):
            seen = re.sub(r"\]\([^)]*\)", "]", line.strip().strip("|"))
            longest = max(len(cell.strip()) for cell in re.split(r"(?<!\\)\|", seen))
            if longest > MOST_CELL:
                found.append((number, longest))
    return found


def figures_in(path: Path) -> list[tuple[int, str, int]]:
    """Times, rates and their ratios: the line, the figure, and where its table begins, or 0."""
    found, table = [], 0
    for number, line in by_hand(path):
        table = (table or number) if line.startswith("|") else 0
        found += [(number, match[0], table) for match in FIGURE.finditer(line)]
    return found


def links_of(path: Path) -> list[tuple[int, str]]:
    """The targets of links to files and headings of the repository."""
    return [
        (number, target)
        for number, line in prose_of(path)
        for target in re.findall(r"\]\(([^)\s]+)\)", line)
        if not re.match(r"[a-z]+:", target)
    ]


@lru_cache(maxsize=None)
def anchors_of(path: Path) -> frozenset[str]:
    headings = [line.lstrip("#").strip() for _, line in prose_of(path) if line.startswith("#")]
    return frozenset(
        re.sub(r"[^\w\- ]", "", heading.lower()).replace(" ", "-") for heading in headings
    )


def lines_with_names(path: Path) -> list[tuple[int, list[Path], list[str]]]:
    """The rows of tables that say where a thing stands: the files, and the names in the last cell
    that must occur there.

    If the last column is headed `Functions` the row has a link to its file, and if it is headed
    `Where` its first cell has its crates.
    """
    rows = []
    head: list[str] = []
    for number, line in prose_of(path):
        if not line.startswith("|"):
            head = []
            continue
        cells = [cell.strip() for cell in line.strip().strip("|").split("|")]
        head = head or cells
        links = (
            [(path.parent / target).resolve() for target in re.findall(r"\]\(([^)#\s]+)\)", line)]
            if head[-1] == "Functions" else []
        )
        crates = re.findall(r"`(\w+)`", cells[0]) if head[-1] == "Where" else []
        names = re.findall(r"`([A-Za-z_][\w:]*)`", re.sub(r"\[[^\]]*\]\([^)]*\)", "", cells[-1]))
        files = [file for file in links if file.exists()] or [
            ROOT / "crates" / crate for crate in crates
        ]
        if files and names:
            rows.append((number, files, [part for name in names for part in name.split("::")]))
    return rows


def names_in(files: list[Path]) -> set[str]:
    """The functions that these files define, or all words of the sources and definitions of these
    crates, without their comments."""
    return set().union(*(_names(file) for file in files))


def crates_in(path: Path) -> set[str]:
    """The crates in the first cells of the tables whose second column is headed `Holds`."""
    found: set[str] = set()
    is_inside = False
    for _, line in prose_of(path):
        cells = [cell.strip() for cell in line.strip().strip("|").split("|")]
        is_inside = line.startswith("|") and (is_inside or cells[1:] == ["Holds"])
        if is_inside:
            found.update(re.findall(r"`(\w+)`", cells[0]))
    return found


@lru_cache(maxsize=None)
def _names(file: Path, is_alone: bool = True) -> frozenset[str]:
    if file.is_dir():
        inside = [*file.glob("src/**/*.rt"), *file.glob("specs/**/*.antt")]
        return frozenset().union(*(_names(path, False) for path in inside))
    text = file.read_text(encoding="utf-8") if file.exists() else ""
    if is_alone:
        return frozenset(re.findall(r"\bfn (\w+)", text))
    comment = r"(?m)(^|\s)--\s.*$" if file.suffix == ".antt" else r"//.*"
    return frozenset(re.findall(r"\w+", re.sub(comment, "", text)))
