"""The usage texts of the tools, as `bin/usage` has them: the one source of `--help`, docs/TOOLS.md
and the manual pages."""

from __future__ import annotations

import re
from dataclasses import dataclass
from pathlib import Path

from parts.command import Fault, read_file

ROOT = Path(__file__).resolve().parent.parent.parent
USAGE = ROOT / "bin/usage"
EXAMPLES = ROOT / "examples"
# The words of a usage that name files, and where their errors come from.
ORIGIN_OF = {
    "UNIT": "unit", "PRESETS": "presets", "SCRIPT": "script", "STREAM": "stream", "MAP": "map",
    "REGIONS": "regions",
}


@dataclass(frozen=True)
class Option:
    word: str  # `-U UNIT`, `SCRIPT`, `--notes`
    meaning: str


@dataclass(frozen=True)
class Example:
    title: str
    command: str
    output: str


@dataclass(frozen=True)
class Usage:
    """The usage of a tool. If it has calls, its last note leads to them."""

    tool: str
    line: str  # the words after the tool's name
    lead: str
    options: tuple[Option, ...]
    notes: tuple[str, ...]
    calls: tuple[Option, ...]  # of the tool's script, with what they take
    examples: tuple[Example, ...]

    def origins(self) -> set[str]:
        """Where the errors of this tool come from."""
        named = {
            origin for word, origin in ORIGIN_OF.items() if re.search(rf"\b{word}\b", self.line)
        }
        return {"words", "memory", "output"} | named | ({"files"} if named else set())


@dataclass(frozen=True)
class Error:
    text: str
    origin: str
    status: str
    cause: str
    remedy: str


def tools() -> list[str]:
    """The tools in the order in which the usage of `papi` lists them."""
    return re.findall(r"^  (papi_\w+)", read_file(str(USAGE / "papi")), re.MULTILINE)


def summaries() -> dict[str, str]:
    """A line for each tool."""
    return dict(re.findall(r"^  (papi_\w+) +(.*)$", read_file(str(USAGE / "papi")), re.MULTILINE))


def read_usage(tool: str) -> Usage:
    head, *parts = re.split(r"\n\n+", read_file(str(USAGE / tool)).strip("\n"))
    if not head.startswith(f"Usage: {tool}"):
        raise Fault(f"bin/usage/{tool}: does not begin with its usage")
    tables: list[tuple[Option, ...]] = []
    notes = []
    if not parts:
        raise Fault(f"bin/usage/{tool}: does not say what the tool does")
    for part in parts[1:]:
        if part.startswith("Example,"):
            break
        if part.startswith("  "):
            tables.append(tuple(_option(tool, line) for line in part.splitlines()))
        else:
            notes.append(" ".join(part.split()))
    options, calls = [*tables, (), ()][:2]
    return Usage(
        tool, head.removeprefix(f"Usage: {tool}").strip(), " ".join(parts[0].split()), options,
        tuple(notes), calls, _examples(tool),
    )


def _option(tool: str, line: str) -> Option:
    word, *meaning = re.split(r"  +", line.strip(), maxsplit=1)
    if not meaning:
        raise Fault(f"bin/usage/{tool}: a word without a meaning: {word}")
    return Option(word, meaning[0])


def _examples(tool: str) -> tuple[Example, ...]:
    found = []
    for line in read_file(str(EXAMPLES / "titles")).splitlines():
        name, colon, title = line.partition(": ")
        if not colon or line.startswith("#"):
            continue
        words = read_file(str(EXAMPLES / f"{name}.words")).splitlines()
        if words[:1] == [tool]:
            found.append(_example(name, title, words))
    return tuple(found)


def _example(name: str, title: str, words: list[str]) -> Example:
    """An example as it is run at the top of the repository, so its files are named from there."""
    files = [word for word in words[1:] if (EXAMPLES / word).is_file()]
    command = " ".join(
        [f"bin/{words[0]}"] + [f"examples/{word}" if word in files else word for word in words[1:]]
    )
    output = _part_of(name, "expected") + _part_of(name, "errors")
    for word in files:
        output = output.replace(f"papi: {word}: ", f"papi: examples/{word}: ")
    return Example(title, command, output + _part_of(name, "hints"))


def _part_of(name: str, ending: str) -> str:
    """What an example writes: `expected` and `errors` by the program, and `hints` by the script in
    bin/ after it, at the top of the repository."""
    path = EXAMPLES / f"{name}.{ending}"
    return read_file(str(path)) if path.exists() else ""


def read_errors() -> list[Error]:
    errors = []
    for block in re.split(r"\n\n+", read_file(str(USAGE / "errors")).strip()):
        if block.startswith("#"):
            continue
        lines = block.splitlines()
        if len(lines) != 4:
            raise Fault(f"bin/usage/errors: a block has {len(lines)} lines and not 4: {lines[0]}")
        origin, _, status = lines[1].partition(" ")
        errors.append(Error(lines[0], origin, status, lines[2], lines[3]))
    return errors
