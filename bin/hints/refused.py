"""Hints on the replies of papi_run that refuse a call: its line, PAPI's sentence, and the rule by
which it is refused."""

from __future__ import annotations

import re
from dataclasses import dataclass
from typing import Sequence

from formats.files import Unread, read_lines
from formats.presets import cpu_fault, name_fault, read_presets
from formats.refusals import NAME_FAULTS, SENTENCES, causes_of, why_not
from formats.scripts import CALLS, Call, calls_of
from formats.texts import cut
from formats.units import read_unit
from formats.words import Words
from holding import Sets, Tables, after, cause_that_holds

MOST_REFUSALS = 10  # that are told
REPLY = re.compile(r"([0-9]+) ([0-9]+) ([a-z]+) (PAPI_E[A-Z0-9]+)((?: \S+)*)")
CONFLICT = "PAPI_ECNFLCT"
NO_REFUSAL = "PAPI_ESYS"  # a run that met a bad line, of which the program says more itself
OF_NAMES = {code for _, _, code in NAME_FAULTS}


@dataclass(frozen=True)
class Refusal:
    call: Call
    code: str
    results: tuple[str, ...]


def tables_of(read: Words) -> Tables:
    """The tables of a call, none where they can't be read again."""
    try:
        unit = read_unit(read.options["-U"])
        return Tables(
            unit,
            read_presets(read.options["-P"], read.options["-C"]) if "-P" in read.options else None,
        )
    except (Unread, OSError, KeyError):
        return Tables(None, None)


def refusal_hints(read: Words, lines: Sequence[str]) -> list[str]:
    refusals = _refusals(read, lines)
    if not refusals:
        return []
    tables, taken = tables_of(read), _taken(read, {refusal.call.line for refusal in refusals})
    told = [
        _told(refusal, after(call for call in taken if call.line < refusal.call.line), tables)
        for refusal in refusals[:MOST_REFUSALS]
    ]
    left = len(refusals) - MOST_REFUSALS
    more = [f"{left:,} more {'call is' if left == 1 else 'calls are'} refused"] if left > 0 else []
    fault = cpu_fault(tables.presets) if tables.presets is not None else ""
    return [fault] * bool(fault) + told + more


def _refusals(read: Words, lines: Sequence[str]) -> list[Refusal]:
    """The refusals among the replies, with their calls as the script has them; with the call's name
    alone if the script can't be read again."""
    replies = [
        found for line in lines if (found := REPLY.fullmatch(line)) and found[4] != NO_REFUSAL
    ]
    try:
        calls = (
            {call.line: call for call in calls_of(read_lines(read.others[0]))} if replies else {}
        )
    except (Unread, OSError, IndexError):
        calls = {}
    return [
        Refusal(
            calls.get(int(found[1]), Call(int(found[1]), int(found[2]), found[3], ())), found[4],
            tuple(found[5].split()),
        )
        for found in replies
    ]


def _taken(read: Words, refused: set[int]) -> list[Call]:
    """The calls that were not refused."""
    try:
        return [call for call in calls_of(read_lines(read.others[0])) if call.line not in refused]
    except (Unread, OSError, IndexError):
        return []


def _told(refusal: Refusal, sets: Sets, tables: Tables) -> str:
    call = refusal.call
    parts = [
        f"line {call.line}", cut(" ".join((call.name, *call.arguments))),
        SENTENCES.get(refusal.code, refusal.code), _why(refusal, sets, tables),
    ]
    return ": ".join(part for part in parts if part)


def _why(refusal: Refusal, sets: Sets, tables: Tables) -> str:
    call, code, results = refusal.call, refusal.code, refusal.results
    if code == CONFLICT and "/" in results:
        place = results.index("/")
        return why_not(place, results[place + 1 :])
    if (
        code in OF_NAMES and "EVENT" in CALLS.get(call.name, ()) and call.arguments
        and tables.unit is not None
    ):
        event = call.arguments[CALLS[call.name].index("EVENT")]
        if fault := name_fault(tables.presets, tables.unit, event):
            return fault
    return cause_that_holds(call, code, sets, tables) or ", or ".join(causes_of(call.name, code))
