"""The events of a unit file, and why a text names none of them (docs/FORMATS.md, Names of
events)."""

from __future__ import annotations

import re
from dataclasses import dataclass, field, replace

from .files import read_table
from .texts import near, shown

MODIFIERS = ("u", "k", "e", "i", "c")
SWITCH = re.compile(r"[01nyft]", re.IGNORECASE)
NUMBER = re.compile(r"0|[1-9][0-9]{0,2}|0x[0-9A-Fa-f]{1,2}")
CODE = re.compile(r"0[xX][0-9A-Fa-f]+|[0-9]+")  # where a name stands


@dataclass(frozen=True)
class Umask:
    name: str
    is_default: bool
    stands_alone: bool
    bits: int = 0
    amount: int = 0  # the least one that it fixes


@dataclass
class Event:
    component: str
    pmu: str
    name: str
    umasks: list[Umask] = field(default_factory=list)
    component_number: int = 0
    select: int = 0

    def full_name(self) -> str:
        return f"{self.pmu}::{self.name}"


class Unit:
    """The events of a unit in their order, found by their names without regard to case."""

    def __init__(self, events: list[Event], widths: dict[int, list[int]] | None = None):
        self.events = events
        self.widths = widths or {}  # of the counters of each component, in bits
        self._by_name: dict[str, list[Event]] = {}
        for event in events:
            self._by_name.setdefault(event.name.upper(), []).append(event)

    def find(self, text: str) -> Event | None:
        """The first event that a text's name agrees with, whatever its attributes are."""
        component, pmu, name, _ = parts_of(text)
        for event in self._by_name.get(name.upper(), []):
            if (component is None or _same(event.component, component)) and (
                pmu is None or _same(event.pmu, pmu)
            ):
                return event
        return None


def read_unit(name: str) -> Unit:
    """The unit of a file that the program took."""
    events: list[Event] = []
    widths: dict[int, list[int]] = {}
    component = pmu = ""
    number = -1
    for row in read_table(name):
        kind, *fields = row.fields()
        if kind == "COMPONENT":
            component, pmu = fields[:2]
            number += 1
        elif kind == "COUNTER":
            widths.setdefault(number, []).append(int(fields[1]))
        elif kind == "EVENT":
            events.append(Event(component, pmu, fields[0], [], number, int(fields[1], 16)))
        elif kind == "UMASK":
            events[-1].umasks.append(
                Umask(fields[0], "d" in fields[2], "n" in fields[2], int(fields[1], 16))
            )
        elif kind == "UMASK_MODIFIERS":
            events[-1].umasks[-1] = replace(events[-1].umasks[-1], amount=int(fields[1]))
    return Unit(events, widths)


def parts_of(text: str) -> tuple[str | None, str | None, str, list[str]]:
    """The component, the pmu, the event's name and the attributes that a text has."""
    before, colons, after = text.partition(":::")
    component, rest = (before, after) if colons else (None, text)
    before, colons, after = rest.partition("::")
    pmu, rest = (before, after) if colons else (None, rest)
    name, *attributes = rest.split(":")
    return component, pmu, name, attributes


def fault_of(unit: Unit, text: str) -> str:
    """Why a text names no native event, or nothing if it names one."""
    event = unit.find(text)
    if event is None:
        return _unknown(unit, text)
    chosen: list[Umask] = []
    taken: set[str] = set()
    for attribute in parts_of(text)[3]:
        fault = _attribute_fault(event, attribute, chosen, taken)
        if fault:
            return fault
    if event.umasks and not chosen and not any(umask.is_default for umask in event.umasks):
        return (
            f"{event.full_name()} needs a "
            f"umask{near('', (f'{event.full_name()}:{umask.name}' for umask in event.umasks))}"
        )
    return ""


def _unknown(unit: Unit, text: str) -> str:
    component, pmu, name, _ = parts_of(text)
    if component is not None and not any(
        _same(event.component, component) for event in unit.events
    ):
        return (
            "the unit has no component "
            f"{shown(component)}{near(component, (event.component for event in unit.events))}"
        )
    if pmu is not None and not any(_same(event.pmu, pmu) for event in unit.events):
        return f"the unit has no pmu {shown(pmu)}{near(pmu, (event.pmu for event in unit.events))}"
    if CODE.fullmatch(text):
        return (
            f"{shown(text)} is a code, and a call takes the event's name: papi_encode prints the "
            "codes of names, and the call `name CODE` replies the name of one"
        )
    names = (event.name for event in unit.events if pmu is None or _same(event.pmu, pmu))
    return f"the unit has no event {shown(text)}{near(name, names)}"


def _attribute_fault(event: Event, attribute: str, chosen: list[Umask], taken: set[str]) -> str:
    """What is wrong with one attribute. A good umask is added to the chosen ones, and each name to
    those taken."""
    name, equals, value = attribute.partition("=")
    umask = next((umask for umask in event.umasks if _same(umask.name, name)), None)
    if umask is None and name.lower() not in MODIFIERS:
        umasks = [umask.name for umask in event.umasks]
        modifiers = "u, k, e, i and c=N are modifiers"
        return (
            f"{event.full_name()} has no umask {shown(attribute)}{near(attribute, umasks)}; "
            f"{modifiers}"
        )
    if name.lower() in taken:
        return f"{shown(name)} stands twice in the name"
    taken.add(name.lower())
    if umask is None:
        return _modifier_fault(name.lower(), equals, value)
    if equals:
        return f"the umask {umask.name} takes no value"
    if chosen and (umask.stands_alone or any(other.stands_alone for other in chosen)):
        return (
            f"the umasks {chosen[-1].name} and {umask.name} of {event.full_name()} cannot be "
            "combined"
        )
    chosen.append(umask)
    return ""


def _modifier_fault(name: str, equals: str, value: str) -> str:
    if name == "c":
        good = NUMBER.fullmatch(value) and int(value, 0) <= 255
        return (
            "" if good else "c takes a number from 0 to 255, without leading zeros: c=2 or c=0x10"
        )
    return (
        "" if not equals or SWITCH.fullmatch(value)
        else f"{name} takes no value, or one of 0 1 n y f t"
    )


def _same(one: str, other: str) -> bool:
    return one.upper() == other.upper()
