"""The words of tools/compare, and its work."""

from __future__ import annotations

import argparse
import sys

from parts.command import Parser, tell
from parts.compare.comparison import LEVELS, compare, read_side
from parts.compare.limits import read_limit
from parts.compare.output import as_csv, as_json, markdown, table
from parts.recording_words import word

OVER = 1  # the status where a limit is passed
FORMS = {"json": as_json, "csv": as_csv, "markdown": markdown}
PRINTED = {
    "json": "JSON, with exact numbers and whole names",
    "csv": "CSV, a line for each count",
    "markdown": "Markdown, as for a comment to a change",
}


def compare_words(name: str) -> argparse.ArgumentParser:
    parser = Parser(
        prog=name,
        description="Compares the counts of two runs: files of tools/count --json, or what "
        "PAPI_hl_region_begin and PAPI_hl_region_end leave, a file or a folder papi_hl_output with "
        "a file for each rank. It prints a table, where what is over its limit is marked.",
    )
    parser.add_argument(
        "base", metavar="BASE", help="the counts before a change: a file, or a folder of regions"
    )
    parser.add_argument("new", metavar="NEW", help="the counts after it")
    parser.add_argument(
        "--limit",
        metavar="LIMIT",
        dest="limits",
        action="append",
        default=[],
        type=word(read_limit),
        help="how much more of an event may be counted: EVENT=2%% or EVENT=+1000; 2%% or +1000 "
        "alone is for each event that has no limit of its own; can be given again",
    )
    parser.add_argument(
        "--by",
        choices=LEVELS,
        help="compare the whole program (counts), each region (regions), or each function: what "
        "happens in it, or (inclusive) with what it calls",
    )
    parser.add_argument("--events", metavar="EVENT,..", help="compare these events alone")
    forms = parser.add_mutually_exclusive_group()
    for form, what in PRINTED.items():
        forms.add_argument(
            f"--{form}", dest="form", action="store_const", const=form, help=f"print {what}"
        )
    return parser


def work(words: argparse.Namespace, name: str) -> None:
    events = words.events.split(",") if words.events is not None else None
    comparison = compare(
        read_side(words.base), read_side(words.new), words.by, events, words.limits
    )
    sys.stdout.write(FORMS.get(words.form, table)(comparison))
    if words.form == "csv":
        for note in comparison.notes:
            tell(note, name)
    if comparison.over:
        sys.exit(OVER)
