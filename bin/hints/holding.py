"""Which of the causes that a refusal may have holds, as far as the calls before it tell."""

from __future__ import annotations

from dataclasses import dataclass, field
from typing import Callable, Dict, Iterable, Optional, Tuple

from formats.presets import Presets
from formats.scripts import Call
from formats.units import Event, Unit, parts_of

LEAST_THRESHOLD = 256
Key = Tuple[int, str]  # a thread and the number of its set


@dataclass(frozen=True)
class Tables:
    """The files of a call, as far as they can be read again."""

    unit: Optional[Unit]
    presets: Optional[Presets]


@dataclass
class Kept:
    """What a set has: the names of its events as they were added, without regard to case."""

    names: list[str] = field(default_factory=list)


Sets = Dict[Key, Kept]


def after(calls: Iterable[Call]) -> Sets:
    """What sets have after calls that were not refused."""
    sets: Sets = {}
    for call in calls:
        if not call.arguments:
            continue
        own = sets.setdefault((call.thread, call.arguments[0]), Kept())
        if call.name == "add":
            own.names.append(call.arguments[1].upper())
        elif call.name == "remove" and call.arguments[1].upper() in own.names:
            own.names.remove(call.arguments[1].upper())
        elif call.name in ("cleanup", "destroy"):
            own.names.clear()
    return sets


def _event_of(tables: Tables, name: str) -> Event | None:
    """The native event of a name, or the first one of a preset or user event."""
    entry = tables.presets.entries.get(name) if tables.presets is not None else None
    if tables.unit is None:
        return None
    return tables.unit.find(entry.natives[0] if entry and entry.natives else name)


def threshold_fault(call: Call, tables: Tables) -> str:
    """Why an event has no threshold, whatever the set has, or nothing."""
    event = _event_of(tables, call.arguments[1])
    entry = tables.presets.entries.get(call.arguments[1]) if tables.presets is not None else None
    threshold = int(call.arguments[2])
    widths = tables.unit.widths.get(event.component_number) if tables.unit and event else None
    last = (1 << min(widths)) - 1 if widths else None
    if threshold and (threshold < LEAST_THRESHOLD or last is not None and threshold > last):
        most = "the last value of the component's narrowest register"
        told = most if last is None else f"{last:,}, {most}"
        return f"the threshold is neither 0 nor from {LEAST_THRESHOLD} to {told}"
    if entry is not None and entry.kind != "NOT_DERIVED":
        return "the event is derived"
    return ""


def _of_overflow(call: Call, own: Kept, tables: Tables) -> str:
    if fault := threshold_fault(call, tables):
        return fault
    name, plain = call.arguments[1].upper(), parts_of(call.arguments[1])[2].upper()
    if not any(plain == parts_of(other)[2] for other in own.names):
        return "the event is not in the set"
    if name not in own.names or call.arguments[2] == "0":
        return ""
    return "another event's threshold is on the same native event"


def _of_add(call: Call, own: Kept, tables: Tables) -> str:
    if call.arguments[1].upper() in own.names:
        return "the set has it"
    events = [_event_of(tables, name) for name in (*own.names, call.arguments[1])]
    numbers = {event.component_number for event in events if event is not None}
    is_known = None not in events and len(numbers) > 1
    return "the set has events of another component" if is_known else ""


def _of_raw(call: Call, own: Kept, tables: Tables) -> str:
    events = [_event_of(tables, name) for name in own.names]
    if tables.unit is None or not events or events[0] is None:
        return ""
    counters = len(tables.unit.widths.get(events[0].component_number, ()))
    if int(call.arguments[1]) < counters:
        return "no native event of the set is on the counter"
    return f"the component has {counters} counters, from 0 on"


OF_CALLS: dict[str, Callable[[Call, Kept, Tables], str]] = {
    "overflow": _of_overflow,
    "add": _of_add,
    "raw": _of_raw,
}
CODE = "PAPI_EINVAL"


def cause_that_holds(call: Call, code: str, sets: Sets, tables: Tables) -> str:
    """The one cause, or nothing if it is not known."""
    if code != CODE or call.name not in OF_CALLS or len(call.arguments) < 2:
        return ""
    return OF_CALLS[call.name](call, sets.get((call.thread, call.arguments[0]), Kept()), tables)
