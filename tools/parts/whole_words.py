"""The words of tools/count for a count of the whole program."""

from __future__ import annotations

import argparse
from dataclasses import dataclass

from parts.ranks import of_rank


@dataclass(frozen=True)
class Whole:
    """What is asked of a count of the whole program."""

    is_beside: bool = False  # also beside the calls that the program makes
    events: str | None = None  # with commas between them, or the usual ones
    children: bool = False
    table: str | None = None  # files, standard error without one
    json: str | None = None
    csv: str | None = None
    functions: tuple[str, ...] = ()  # whose calls alone count
    profile: bool = False
    callgrind: str | None = None  # a file
    page: str | None = None  # a file

    def is_profiled(self) -> bool:
        return self.profile or self.callgrind is not None or self.page is not None

    def is_asked(self) -> bool:
        """Whether somebody wants it, whatever the program does."""
        return self != Whole(is_beside=self.is_beside)


def add_whole(parser: argparse.ArgumentParser) -> None:
    whole = parser.add_argument_group("the whole program (docs/COUNTING.md)")
    whole.add_argument(
        "--events",
        metavar="E,..",
        help="count these events of the unit, presets and user events, with commas between the "
        "names (instructions, cycles, loads, stores, misses of the first and the last level, "
        "branches, mispredictions, floating-point operations)",
    )
    whole.add_argument(
        "--function",
        metavar="NAME",
        dest="functions",
        action="append",
        default=[],
        help="count only what happens in calls of this function, from each call to its return, "
        "with what it calls; may be repeated. 0xADDRESS names a function by its address in the "
        "program's file",
    )
    whole.add_argument(
        "--profile",
        action="store_true",
        help="also count each function and each line of source by itself, and each function with "
        "what it calls",
    )
    whole.add_argument(
        "--callgrind",
        metavar="FILE",
        help="also write the profile in callgrind's format, for callgrind_annotate and KCachegrind",
    )
    whole.add_argument(
        "--page",
        metavar="FILE",
        help="also write the profile as one HTML page: source with counts, functions, and a flame "
        "graph; it fetches nothing",
    )
    whole.add_argument(
        "--whole",
        action="store_true",
        help="also count a program as a whole that makes PAPI's calls",
    )
    whole.add_argument(
        "--children",
        action="store_true",
        help="also count the processes that the program starts, each and all together",
    )
    whole.add_argument(
        "-o",
        metavar="FILE",
        dest="table",
        help="write the table to this file, in place of standard error; in the names of all files "
        "%%r stands for the rank of a process of MPI",
    )
    whole.add_argument(
        "--json", metavar="FILE", help="also write the counts as JSON (docs/FORMATS.md)"
    )
    whole.add_argument("--csv", metavar="FILE", help="also write them as CSV")


def whole_of(words: argparse.Namespace) -> Whole:
    def named(file: str | None) -> str | None:
        return None if file is None else of_rank(file)

    return Whole(
        is_beside=words.whole,
        events=words.events,
        children=words.children,
        table=named(words.table),
        json=named(words.json),
        csv=named(words.csv),
        functions=tuple(dict.fromkeys(words.functions)),
        profile=words.profile,
        callgrind=named(words.callgrind),
        page=named(words.page),
    )
