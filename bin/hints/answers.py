"""Hints on whole answers: a name that is not there, and a list that is empty of what was asked
for."""

from __future__ import annotations

from itertools import islice
from typing import Callable, Iterable, List, Optional

from formats.files import Unread, read_lines
from formats.presets import (
    SYMBOLS, Presets, cpu_fault, instead_of, name_fault, read_presets, why_unavailable,
)
from formats.scripts import Call, calls_of
from formats.texts import counted, cut, near, shown
from formats.units import Unit, fault_of, read_unit
from formats.words import Words
from holding import Tables, threshold_fault

MOST_NAMES = 3  # of a script that are told


def answer_hints(tool: str, read: Words) -> list[str]:
    try:
        if tool not in HINTS_OF:
            return []
        unit = read_unit(read.options["-U"])
        presets = (
            read_presets(read.options["-P"], read.options["-C"]) if "-P" in read.options else None
        )
        if presets is not None and (fault := cpu_fault(presets)):
            return [fault]
        return [hint for hint in HINTS_OF[tool](read, unit, presets) if hint]
    except (Unread, OSError, KeyError):
        return []


def _of_avail(read: Words, unit: Unit, presets: Presets | None) -> list[str]:
    assert presets is not None
    name = read.options.get("-e")
    if name is None:
        faults = [
            fault for symbol in presets.entries if (fault := why_unavailable(presets, unit, symbol))
        ]
        if faults and len(faults) == len(presets.entries):
            return [f"the unit has none of the presets of {presets.cpu}: {faults[0]}"]
        return [] if presets.entries else [
            f"the preset file has no row for the processor {presets.cpu} that the program "
            f"knows{_of_others(presets)}"
        ]
    if name in presets.entries or name in SYMBOLS:
        return [why_unavailable(presets, unit, name)]
    if instead_of(presets, name):
        return [name_fault(presets, unit, name)]
    return [
        "neither a preset nor a user event has the name "
        f"{shown(name)}{near(name, (*SYMBOLS, *presets.user_events()))}"
    ]


def _of_others(presets: Presets) -> str:
    others = len(set(presets.passed_over))
    return (
        f"; of its {counted(others, 'row')} of other presets tools/preset_rows makes user events"
        if others else ""
    )


def _of_native_avail(read: Words, unit: Unit, presets: Presets | None) -> list[str]:
    name = read.options.get("-e")
    if name is not None:
        return [fault_of(unit, name)]
    part, without = read.options.get("-i", ""), read.options.get("-x")
    names = [event.full_name() for event in unit.events]
    kept = [full for full in names if part in full]
    if not kept:
        return [
            f"no name of an event contains {shown(part)}, with regard to "
            f"case{near(part, (event.name for event in unit.events))}"
        ]
    if without is not None and all(without in full for full in kept):
        return [f"each name that -i leaves contains {shown(without)}, so -x leaves none"]
    return []


def _of_encode(read: Words, unit: Unit, presets: Presets | None) -> list[str]:
    return _first(fault_of(unit, name) for name in read.others)


def _of_chooser(read: Words, unit: Unit, presets: Presets | None) -> list[str]:
    kind, *names = read.others
    faults = [name_fault(presets, unit, name) for name in names]
    if kind == "PRESET" and presets is None:
        faults.append("without -P PRESETS and -C CPU there are no presets to list")
    return _first(faults)


def _of_regions(read: Words, unit: Unit, presets: Presets | None) -> list[str]:
    return _first(name_fault(presets, unit, name) for name in read.options["--events"].split(","))


def _of_script(read: Words, unit: Unit, presets: Presets | None) -> list[str]:
    """On the names of a script whose replies are not printed."""
    lines: dict[str, int] = {}
    for call in calls_of(read_lines(read.others[0])):
        if call.name == "add":
            lines.setdefault(call.arguments[1], call.line)
    faults = ((line, name_fault(presets, unit, name)) for name, line in lines.items())
    return _first(f"line {line}: {fault}" for line, fault in faults if fault)


def _of_profil(read: Words, unit: Unit, presets: Presets | None) -> list[str]:
    return [why_no_total(read, Tables(unit, presets)), *_of_script(read, unit, presets)]


def why_no_total(read: Words, tables: Tables) -> str:
    """Why the total of a profile is 0, if that can be told without a run."""
    thread, number, index = (
        int(read.options.get(option, "0")) for option in ("--thread", "--set", "--index")
    )
    streams = len(read.others) - 1
    calls = [call for call in calls_of(read_lines(read.others[0])) if call.thread == thread]
    sets = [call for call in calls if call.arguments[:1] == (str(number),)]
    if streams <= thread:
        return (
            f"thread {thread} has no stream: the first stream belongs to thread 0, the next to "
            f"thread 1, and the words name {counted(streams, 'stream')}"
        )
    overflows = [call for call in sets if call.name == "overflow" and call.arguments[2] != "0"]
    if not overflows:
        return (
            f"the script has no overflow call for set {number} of thread "
            f"{thread}{_overflows(calls)}"
        )
    faults = [(call, threshold_fault(call, tables)) for call in overflows]
    if all(fault for _, fault in faults):
        call, fault = faults[0]
        return (
            f"line {call.line}: {cut(' '.join((call.name, *call.arguments)))} is refused: {fault}"
        )
    most = sum(call.name == "add" for call in sets)
    if index >= most:
        return (
            f"set {number} of thread {thread} has at most {counted(most, 'event')}, numbered from "
            f"0, and --index is {index}"
        )
    return (
        "" if any(call.name == "run" for call in calls)
        else f"the script has no run of thread {thread}"
    )


def _overflows(calls: list[Call]) -> str:
    """The sets of a thread that have a threshold."""
    sets = sorted({int(call.arguments[0]) for call in calls if call.name == "overflow"})
    return f" (it has some for set {', '.join(map(str, sets))}: --set)" if sets else ""


def _first(faults: Iterable[str]) -> list[str]:
    """The first few of the faults. No more of them are looked for."""
    told = list(islice((fault for fault in faults if fault), MOST_NAMES + 1))
    return told[:MOST_NAMES] + ["and more names have faults"] * (len(told) > MOST_NAMES)


Hinter = Callable[[Words, Unit, Optional[Presets]], List[str]]
HINTS_OF: dict[str, Hinter] = {
    "papi_profil": _of_profil,
    "papi_regions": _of_regions,
    "papi_avail": _of_avail,
    "papi_native_avail": _of_native_avail,
    "papi_event_chooser": _of_chooser,
    "papi_decode": lambda read, unit, presets: [],
    "papi_encode": _of_encode,
}
