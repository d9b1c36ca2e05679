"""A comparison as a table, as a table of Markdown, as JSON and as CSV."""

from __future__ import annotations

import csv
import io
import json
import re
from fractions import Fraction
from itertools import groupby

from formats.texts import plain
from parts.command import counted
from parts.compare.comparison import WHOLE_LEVEL, Comparison, Row

LONGEST_NAME = 60  # in a table
LONGEST_LINE = 240  # below it
NUMBERS = ("base", "new", "difference", "per cent")
HEAD = ("event", *NUMBERS, "")
FORMAT, VERSION = "kistalub-comparison", 1
FORMULA = ("=", "+", "-", "@")  # what a sheet takes for the beginning of one
FIELDS = ("name", "event", "base", "new", "difference", "percent", "over")


def percent_of(row: Row) -> str | None:
    """The difference in per cent of the base, with two digits. There is none of a base of 0 or
    less, nor where one side has no count."""
    if row.base is None or row.new is None or row.base <= 0:
        return None
    hundredths = round(Fraction(10_000 * abs(row.difference), row.base))
    sign = "+" if row.difference > 0 else "-" if row.difference < 0 else ""
    return f"{sign}{hundredths // 100}.{hundredths % 100:02}"


def _number(number: int | None) -> str:
    return "-" if number is None else f"{number:,}"


def _mark(row: Row) -> str:
    alone = "only in NEW" if row.base is None else "only in BASE" if row.new is None else ""
    over = f"over {', '.join(limit.text for limit in row.passed)}" if row.passed else ""
    return ", ".join(filter(None, (alone, over)))


def _cells(row: Row) -> list[str]:
    percent = percent_of(row)
    return [
        row.event,
        _number(row.base),
        _number(row.new),
        f"{row.difference:+,}" if row.difference else "0",
        f"{percent} %" if percent else "-",
        _mark(row),
    ]


def _shown(comparison: Comparison) -> tuple[list[tuple[str, list[Row]]], int]:
    """The rows by name. Functions are in the order of how much they differ in the first event, and
    those the same on both sides are left out. And how many these are."""
    groups = [(name, list(rows)) for name, rows in groupby(comparison.rows, lambda row: row.name)]
    if comparison.level not in ("function", "inclusive"):
        return groups, 0
    shown = [
        (name, rows)
        for name, rows in groups
        if any(row.difference or row.base is None or row.new is None for row in rows)
    ]
    shown.sort(key=lambda group: -abs(group[1][0].difference))
    return shown, len(groups) - len(shown)


def _first(comparison: Comparison) -> int:
    """The first column that a table has: a whole program has no name."""
    return int(comparison.level == WHOLE_LEVEL)


def _ending(comparison: Comparison, left_out: int) -> list[str]:
    """The last lines: what is left out, and how many limits are passed."""
    lines = [f"{counted(left_out, 'function')} with the same counts left out"] if left_out else []
    number = counted(len(comparison.rows), "count")
    over = f"{comparison.over:,} over {'its limit' if comparison.over == 1 else 'their limits'}"
    return [*lines, f"{number}: {over}" if comparison.has_limits else f"{number}, and no limit"]


def _short(text: str, longest: int = LONGEST_NAME) -> str:
    text = plain(text)
    return text if len(text) <= longest else text[:longest] + ".."


def _widths(rows: list[list[str]]) -> list[int]:
    return [max(len(row[column]) for row in rows) for column in range(len(rows[0]))]


def table(comparison: Comparison) -> str:
    """Columns of text, a name at the first of its rows."""
    groups, left_out = _shown(comparison)
    rows = [[comparison.level, *HEAD]]
    for name, inner in groups:
        rows += [
            [_short(name) if place == 0 else "", *map(_short, _cells(row))]
            for place, row in enumerate(inner)
        ]
    rows = [row[_first(comparison) :] for row in rows]
    texts = len(rows[0]) - len(NUMBERS) - 1  # columns that begin at the left
    widths = _widths(rows)
    lines = []
    for row in rows:
        cells = [
            cell.rjust(width) if texts <= column < len(row) - 1 else cell.ljust(width)
            for column, (cell, width) in enumerate(zip(row, widths))
        ]
        lines.append("  ".join(cells))
    lines += [
        *(_short(note, LONGEST_LINE) for note in comparison.notes),
        *_ending(comparison, left_out),
    ]
    return "".join(f"{line.rstrip()}\n" for line in lines)


def _code(text: str) -> str:
    """A text as code of Markdown: nothing in it is a link, a mark, HTML or the name of somebody."""
    if not text:
        return ""
    fence = "`" * (1 + max((len(run) for run in re.findall("`+", text)), default=0))
    room = " " if text[0] == "`" or text[-1] == "`" else ""
    return f"{fence}{room}{text}{room}{fence}"


def markdown(comparison: Comparison) -> str:
    """A table of Markdown, with a line for each thing that is told beside it."""
    groups, left_out = _shown(comparison)
    first = _first(comparison)
    rows = [[comparison.level, *HEAD], ["---", "---", *["--:"] * len(NUMBERS), "---"]]
    for name, inner in groups:
        for place, row in enumerate(inner):
            event, *numbers, mark = _cells(row)
            named = [
                _code(_short(text).replace("|", "\\|"))
                for text in (name if place == 0 else "", event)
            ]
            rows.append([*named, *numbers, f"**{mark}**" if row.passed else mark])
    lines = [f"| {' | '.join(row[first:])} |" for row in rows]
    lines += ["", *(f"- {_code(_short(note, LONGEST_LINE))}" for note in comparison.notes)]
    return "".join(
        f"{line}\n" for line in [*lines, *(f"- {line}" for line in _ending(comparison, left_out))]
    )


def _object(row: Row) -> dict[str, object]:
    percent = percent_of(row)
    over = [limit.text for limit in row.passed]
    return {
        "name": row.name,
        "event": row.event,
        "base": row.base,
        "new": row.new,
        "difference": row.difference,
        "percent": float(percent) if percent else None,
        "over": over,
    }


def as_json(comparison: Comparison) -> str:
    made = {
        "format": FORMAT,
        "version": VERSION,
        "base": comparison.base,
        "new": comparison.new,
        "by": comparison.level,
        "over": comparison.over,
        "notes": comparison.notes,
        "rows": list(map(_object, comparison.rows)),
    }
    return json.dumps(made, indent=2) + "\n"


def _field(text: str) -> str:
    """A text that no sheet takes for a formula, on one line."""
    text = plain(text)
    return f"'{text}" if text.startswith(FORMULA) else text


def as_csv(comparison: Comparison) -> str:
    """A line for each count; empty fields where there is none."""
    text = io.StringIO()
    writer = csv.writer(text, lineterminator="\n")
    writer.writerow(FIELDS)
    for row in comparison.rows:
        numbers = ["" if number is None else number for number in (row.base, row.new)]
        writer.writerow(
            [
                _field(row.name),
                _field(row.event),
                *numbers,
                row.difference,
                (percent_of(row) or "").lstrip("+"),
                _field(" ".join(limit.text for limit in row.passed)),
            ]
        )
    return text.getvalue()
