"""The words of tools/plan, and its work."""

from __future__ import annotations

import argparse
import sys

from parts.command import Parser, tell
from parts.planning.output import as_json, as_text
from parts.planning.plan import plan_of

REFUSED = 1  # the status where an event is refused


def plan_words(name: str) -> argparse.ArgumentParser:
    parser = Parser(
        prog=name,
        description="Says which of some events fit together, and in how many runs all of them can "
        "be counted: the fewest sets, each of which the program itself takes. Up to 24 events of a "
        "component all ways are tried. Of more it says how many sets there are at least.",
    )
    parser.add_argument(
        "--unit",
        metavar="UNIT",
        required=True,
        help="the unit file, such as one of make_unit",
    )
    parser.add_argument("--presets", metavar="PRESETS", help="the preset file; goes with --cpu")
    parser.add_argument(
        "--cpu",
        metavar="CPU",
        help="the processor whose presets and user events are read; goes with --presets",
    )
    parser.add_argument(
        "--json", action="store_true", help="print JSON, with the counter of each native event"
    )
    parser.add_argument(
        "events",
        metavar="EVENT",
        nargs="+",
        help="names of native events, presets and user events, with blanks or commas between them",
    )
    return parser


def read_words(name: str) -> argparse.Namespace:
    parser = plan_words(name)
    words = parser.parse_args()
    if (words.presets is None) != (words.cpu is None):
        parser.error("--presets and --cpu go together")
    return words


def work(words: argparse.Namespace, name: str) -> None:
    files = [f"-U{words.unit}"]
    if words.presets is not None:
        files += [f"-P{words.presets}", f"-C{words.cpu}"]
    events = [event for word in words.events for event in word.split(",")]
    plan = plan_of(files, events)
    if words.json:
        sys.stdout.write(as_json(plan, words.unit, words.presets, words.cpu))
    else:
        sys.stdout.write(as_text(plan))
    for refusal in plan.refused:
        tell(refusal, name)
    if plan.refused:
        sys.exit(REFUSED)
