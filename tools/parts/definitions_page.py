"""docs/DEFINITIONS.md: what a reader has to read to know what the headline says, in the order to
read it, and after it what the law of C programs says beyond it."""

from __future__ import annotations

import re
from dataclasses import dataclass
from pathlib import Path

from parts.command import Fault, read_file
from parts.crate_graph import levels, read_crates
from parts.definitions import Definition, Definitions, contract_words

TOP = "crates/papi_tools/src/top.rt"
TOP_FUNCTION = "papi_main"
LAW = "crates/papi_c/src/laws.rt"
LAW_FUNCTION = "history_law"
TOTAL = re.compile(
    r"[\d,]+ definitions of [\d,]+ lines in \d+ files, and \d+ types of [\d,]+ lines"
)
ROW = re.compile(r"^\| `(\w+)`((?:, `\w+`)*) \| (.*) \|$")
INTRODUCTION = """# Definitions

What to read to know what the [headline](../README.md#what-is-proved) says, and nothing else: each definition that the contract of `papi_main`
([top.rt](../crates/papi_tools/src/top.rt)) reaches. It begins with the contract itself, and goes down from there: a crate comes before those that
it stands on. [ARCHITECTURE](ARCHITECTURE.md#what-a-contract-says) has the notation. A word that is in no table here is one of the library's,
such as `List` or `take`.

The page is made by `tools/make_definitions`. Lines are counted without comments, imports and empty lines.
"""


# What the law of C programs reaches beyond the headline.
OF_PROGRAMS = """## For C programs

What to read to know what [`history_law`](../crates/papi_c/src/laws.rt) says: whatever a C program does with a library that
it opens without a stream, each reply and each note is that of the one-thread definition. It reaches {shared} of the
definitions and types above, and these {total}.
"""


@dataclass(frozen=True)
class Guide:
    root: Path
    definitions: list[Definition]  # in the order to read them
    subjects: dict[str, str]  # what a crate holds, by its name
    of_programs: "Guide | None" = None  # what the law of C programs reaches beyond these
    shared: int = 0  # how many of these it reaches

    @property
    def specs(self) -> list[Definition]:
        return [it for it in self.definitions if it.file.suffix == ".antt"]

    @property
    def types(self) -> list[Definition]:
        return [it for it in self.definitions if it.file.suffix != ".antt"]


def read_subjects(root: Path) -> dict[str, str]:
    """The table of crates of docs/ARCHITECTURE.md."""
    found = {}
    for line in read_file(str(root / "docs/ARCHITECTURE.md")).splitlines():
        row = ROW.match(line)
        if row:
            for crate in (row[1], *re.findall(r"\w+", row[2])):
                found.setdefault(crate, row[3])
    return found


def reached_by(every: Definitions, file: str, function: str) -> list[Definition]:
    """What the contract of a function reaches."""
    module, words = contract_words(every.root / file, function)
    starts = [place for place in (every.place_of(module, word) for word in words) if place]
    if not starts:
        raise Fault(f"{file}: the contract of {function} cites no definition")
    found = every.reached(list(dict.fromkeys(starts)))
    for it in found:
        if not it.sentence:
            name = it.file.relative_to(every.root)
            raise Fault(f"{name}: {it.place.name} has no sentence above it")
    return found


def read_guide(root: Path) -> Guide:
    every = Definitions(root)
    subjects = read_subjects(root)
    first = reached_by(every, TOP, TOP_FUNCTION)
    places = {it.place for it in first}
    law = reached_by(every, LAW, LAW_FUNCTION)
    beyond = Guide(root, [it for it in law if it.place not in places], subjects)
    return Guide(root, first, subjects, beyond, len(law) - len(beyond.definitions))


def total_line(guide: Guide) -> str:
    """The total, as README and the page say it."""
    files = len({it.file for it in guide.specs})
    lines = sum(it.lines for it in guide.specs)
    types = sum(it.lines for it in guide.types)
    return (
        f"{len(guide.specs):,} definitions of {lines:,} lines in {files} files, and "
        f"{len(guide.types)} types of {types:,} lines"
    )


def with_total(text: str, total: str) -> str:
    """The README with this total, which it says once."""
    text, times = TOTAL.subn(total, text)
    if times != 1:
        raise Fault(f"README.md has {times or 'no'} totals like: {total}")
    return text


def by_crate(guide: Guide) -> dict[str, list[Definition]]:
    """The definitions of each crate, a crate before all that it stands on, and else where the
    reader first meets it."""
    groups: dict[str, list[Definition]] = {}
    for definition in guide.definitions:
        groups.setdefault(definition.place.crate, []).append(definition)
    level = levels(read_crates(guide.root / "crates.txt"))
    return {crate: groups[crate] for crate in sorted(groups, key=lambda crate: -level[crate])}


def begun(sentence: str) -> str:
    """A sentence without its full stop, begun with a capital; those in it stay."""
    return sentence[:1].upper() + sentence[1:].rstrip(".")


def row(guide: Guide, definition: Definition) -> str:
    place = definition.file.relative_to(guide.root)
    said = begun(definition.sentence.replace("|", "\\|"))
    return (
        f"| [`{definition.place.name}`](../{place}#L{definition.line}) | {said} | "
        f"{definition.lines} |"
    )


def tables(guide: Guide, crate: str, definitions: list[Definition]) -> list[str]:
    """A table for each file."""
    text: list[str] = []
    modules: dict[Path, list[Definition]] = {}
    for definition in definitions:
        modules.setdefault(definition.file, []).append(definition)
    for file, ones in modules.items():
        head = ["| Definition | What it says | Lines |", "|---|---|---|"]
        text += [f"### {crate}: {file.stem}", "", *head]
        text += [row(guide, it) for it in sorted(ones, key=lambda it: it.line)] + [""]
    return text


def section(guide: Guide, crate: str, definitions: list[Definition]) -> list[str]:
    lines = sum(it.lines for it in definitions)
    subject = begun(guide.subjects.get(crate, crate))
    text = [f"## {crate}", "", f"{subject}. {len(definitions)} here, {lines} lines.", ""]
    return text + tables(guide, crate, definitions)


def guide_page(guide: Guide) -> str:
    text = [INTRODUCTION, f"In all {total_line(guide)}.", ""]
    for crate, definitions in by_crate(guide).items():
        text += section(guide, crate, definitions)
    if beyond := guide.of_programs:
        text.append(OF_PROGRAMS.format(shared=guide.shared, total=total_line(beyond)))
        for crate, definitions in by_crate(beyond).items():
            text += tables(beyond, crate, definitions)
    return "\n".join(text).rstrip("\n") + "\n"
