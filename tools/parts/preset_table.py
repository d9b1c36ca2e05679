"""The table of presets (crates/preset_csv/presets.csv), and what other files have of it: lines
between marks, the number of presets, and lists of all."""

from __future__ import annotations

import re
from dataclasses import dataclass
from itertools import takewhile
from pathlib import Path
from typing import Callable

from parts.command import Fault, read_file
from parts.regions import filled, with_region
from parts.usage import ROOT

TABLE = "crates/preset_csv/presets.csv"
SYMBOL = re.compile(r"PAPI_[A-Z0-9_]+")
CODE = re.compile(r"0x8[0-9a-f]{7}")
DESCRIPTION = re.compile(r"[A-Za-z0-9 ]+")
MAKER = "tools/make_presets"
ROWS = "examples/rows"
LIST_HEAD = "Name          Code        Avail  Deriv  Description"
LISTED = re.compile(r"(PAPI_\w+) +0x[0-9a-f]+  ((?:Yes|No) +(?:Yes|No) +)")
FOLDED = "PAPI_..."
UNAVAILABLE = "No     No     "


@dataclass(frozen=True)
class Preset:
    """A line of the table."""

    symbol: str
    code: str
    description: str


def read_presets(text: str) -> list[Preset]:
    """The lines of the table. Its codes rise, so no preset stands twice."""
    presets: list[Preset] = []
    for number, line in enumerate(text.splitlines(), 1):
        if line.startswith("#"):
            continue
        fields = line.split(",")
        if len(fields) != 3:
            raise Fault(f"{TABLE}: line {number}: not three fields")
        preset = Preset(*fields)
        for what, good in (
            (
                "symbol",
                SYMBOL.fullmatch(preset.symbol)
                and all(preset.symbol != other.symbol for other in presets),
            ),
            (
                "code",
                CODE.fullmatch(preset.code) and (not presets or presets[-1].code < preset.code),
            ),
            ("description", DESCRIPTION.fullmatch(preset.description)),
        ):
            if not good:
                raise Fault(f"{TABLE}: line {number}: bad {what}")
        presets.append(preset)
    if not presets:
        raise Fault(f"{TABLE}: no preset")
    return presets


def _arms(values: list[str]) -> list[str]:
    """The arms of a match over the rows. The last one has every row that is left."""
    last = len(values) - 1
    return [
        f"        {'_' if row == last else row} => {value}," for row, value in enumerate(values)
    ]


def code_lines(presets: list[Preset]) -> list[str]:
    unfolded = "crate::specs::Symbols::preset_rows, crate::specs::Symbols::"
    return [
        "/// How many rows the table has.",
        f"pub const PRESETS: u32 = {len(presets)};",
        "",
        "// The symbol and the code in a row, which are those of PAPI's list.",
        f"#[tactic(auto, unfolding({unfolded}symbol_at, crate::specs::Symbols::code_at))]",
        "fn preset_at(row: u32) -> (&'static str, u32)",
        "    requires { row < PRESETS }",
        "    ensures symbol { result.0.now ≡ Symbols.symbol_at row }",
        "    ensures code { result.1 ≡ Symbols.code_at row }",
        "{",
        "    match row {",
        *_arms([f'("{preset.symbol}", {preset.code})' for preset in presets]),
        "    }",
        "}",
        "",
        "/// The description in a row below [`PRESETS`].",
        f"#[tactic(auto, unfolding({unfolded}description_at))]",
        "pub fn preset_text(row: u32) -> &'static str",
        "    requires { row < PRESETS }",
        "    ensures description { result.now ≡ Symbols.description_at row }",
        "{",
        "    match row {",
        *_arms([f'"{preset.description}"' for preset in presets]),
        "    }",
        "}",
    ]


def definition_lines(presets: list[Preset]) -> list[str]:
    rows = [
        f'preset (codes "{preset.symbol}") {preset.code} (codes "{preset.description}")'
        for preset in presets
    ]
    return [
        "-- the rows, of which the first has the number 0",
        "unfoldable pub preset_rows : List PresetRow",
        "preset_rows =",
        f"    {rows[0]}",
        *[f"    ∷ {row}" for row in rows[1:]],
        "    ∷ []",
        "",
    ]


def modelled_lines(presets: list[Preset]) -> list[str]:
    return [
        "static const int modelled[] = {",
        *filled([f"{preset.symbol}," for preset in presets], 100), "};",
    ]


def symbol_lines(presets: list[Preset]) -> list[str]:
    return ["SYMBOLS = (", *filled([f'"{preset.symbol}",' for preset in presets], 100), ")"]


def number_lines(presets: list[Preset]) -> list[str]:
    """Symbols with the number that each has in PAPI's list, which is its code without bit 31."""
    pairs = [f'"{preset.symbol}":~0x{int(preset.code, 16) - 0x80000000:02X},' for preset in presets]
    return ["PRESET_CODES = {", *[line.replace("~", " ") for line in filled(pairs, 100)], "}"]


def document_lines(presets: list[Preset]) -> list[str]:
    names = [f"`{preset.symbol}`," for preset in presets]
    return filled([*names, "with the codes that PAPI gives them."], 160, "")


# The files, and what stands there between the two marks.
REGIONS: dict[str, Callable[[list[Preset]], list[str]]] = {
    "crates/preset_csv/src/symbols.rt": code_lines,
    "crates/preset_csv/specs/Symbols.antt": definition_lines,
    "c/presets.c": modelled_lines,
    "bin/hints/formats/presets.py": symbol_lines,
    "checks/cases.py": number_lines,
    "checks/drawing.py": symbol_lines,
    "docs/FORMATS.md": document_lines,
}


# Texts with the number of presets, which stands at {n}. At {n+2} there are two user events more.
NUMBERS: dict[str, tuple[str, ...]] = {
    "docs/DIFFERENCES.md": ("| 108 presets | [{n}](",),
    "docs/FORMATS.md": (
        "| a preset file | {n} symbols and ", " and {n} of PAPI's presets are known",
    ),
    "docs/C_PROGRAMS.md": ("The model has [{n}](",),
    "examples/avail.expected": ("Of {n} possible events",),
    "examples/avail_all.expected": ("Of {n} possible events",),
    f"{ROWS}/tools.rows": ("Of {n} possible events",),
    f"{ROWS}/preset_lists.rows": (
        "Of {n} possible events, 1 are available,",
        "Of {n+3} possible events, 4 are available, of which 1 are",
        "Of {n+5} possible events, 4 are available, of which 2 are",
    ),
    f"{ROWS}/user_events.rows": ("Of {n+5} possible events",),
}


def with_number(name: str, text: str, pattern: str, number: int) -> str:
    """The text of a file with the number of presets where the pattern has it."""
    front, more, back = re.split(r"\{n\+?(\d*)\}", pattern)
    place = re.compile(rf"({re.escape(front)})\d+({re.escape(back)})")
    text, times = place.subn(rf"\g<1>{number + int(more or 0)}\g<2>", text)
    if not times:
        raise Fault(f"{name}: nothing reads: {pattern}")
    return text


# Lists of papi_avail that have all presets, each with a line that stands above the list.
LISTINGS = {
    "examples/avail_all.expected": LIST_HEAD,
    f"{ROWS}/tools.rows": "row All presets.",
    f"{ROWS}/preset_lists.rows": "row All user events stand below all presets.",
}


def listing_lines(presets: list[Preset], old: list[str]) -> list[str]:
    """The lines of all presets. Each keeps what its old line says of it. One without a line is not
    available, or is among those of `6 times: PAPI_...`."""
    said = {found[1]: found[2] for line in old if (found := LISTED.match(line))}
    folded = any(line.endswith(FOLDED) for line in old)
    lines, times = [], 0
    for preset in presets:
        if folded and preset.symbol not in said:
            times += 1
            continue
        lines += [f"{times} times: {FOLDED}"] if times else []
        lines.append(
            f"{preset.symbol:<14}{preset.code}  "
            f"{said.get(preset.symbol, UNAVAILABLE)}{preset.description}"
        )
        times = 0
    return lines + ([f"{times} times: {FOLDED}"] if times else [])


def _list_below(name: str, lines: list[str], title: str) -> int:
    """Where the list begins that stands below a line, with no empty line between."""
    if lines.count(title) == 1:
        for at, line in enumerate(
            takewhile(bool, lines[lines.index(title) :]), lines.index(title) + 1
        ):
            if line.strip() == LIST_HEAD:
                return at
    raise Fault(f"{name}: no list of presets below: {title}")


def with_listing(name: str, text: str, title: str, presets: list[Preset]) -> str:
    """The text of a file with all presets in the list that stands below this line."""
    lines = text.split("\n")
    begin = _list_below(name, lines, title)
    old = list(
        takewhile(
            lambda line: LISTED.match(line) or line.endswith(FOLDED),
            (line.strip() for line in lines[begin:]),
        )
    )
    indent = " " * lines[begin - 1].index(LIST_HEAD)
    return "\n".join(
        [
            *lines[:begin], *(indent + line for line in listing_lines(presets, old)),
            *lines[begin + len(old) :],
        ]
    )


MADE = tuple({**REGIONS, **LISTINGS, **NUMBERS})


def made_texts(root: Path = ROOT) -> dict[str, str]:
    """Each file as it is to be."""
    presets = read_presets(read_file(str(root / TABLE)))
    texts = {name: read_file(str(root / name)) for name in MADE}
    for name, lines in REGIONS.items():
        texts[name] = with_region(name, texts[name], MAKER, lines(presets))
    for name, title in LISTINGS.items():
        texts[name] = with_listing(name, texts[name], title, presets)
    for name, patterns in NUMBERS.items():
        for pattern in patterns:
            texts[name] = with_number(name, texts[name], pattern, len(presets))
    return texts
