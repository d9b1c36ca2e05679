"""The events that a unit and its presets have (PAPI_enum_event(3), PAPI_get_event_info(3))."""

from __future__ import annotations

import ctypes
from dataclasses import dataclass
from typing import Iterator

from .binding import (
    ENUM_EVENTS, ENUM_FIRST, ENUM_UMASKS, LONGEST, NATIVE_MASK, PRESET_MASK, Info, call, text_of,
)
from .errors import ENOEVNT


@dataclass(frozen=True)
class EventInfo:
    """What is told of an event. A preset or user event has a derived type, a formula and native
    events, and a native event has none."""

    name: str
    description: str
    component: int
    derived: str
    formula: str
    natives: tuple[str, ...]


def code_of(name: str) -> int:
    """The code of an event. `ENOEVNT` if there is no such event, ValueError if the name has a
    NUL."""
    code = ctypes.c_int(0)
    call("PAPI_event_name_to_code", text_of(name), ctypes.byref(code))
    return code.value


def describe(name: str) -> EventInfo:
    """What is told of an event by its name. `ENOEVNT` if there is no such event."""
    info = Info()
    call("PAPI_get_event_info", code_of(name), ctypes.byref(info))
    natives = tuple(info.name[place].value.decode() for place in range(info.count))
    return EventInfo(
        info.symbol.decode(), info.long_descr.decode(), info.component_index, info.derived.decode(),
        info.postfix.decode(), natives,
    )


def native_events(*, umasks: bool = False) -> list[str]:
    """The names of the native events of all components, in the order of the unit file. With
    `umasks` the names with each umask follow that of the event."""
    names = []
    for code in _codes(NATIVE_MASK):
        names.append(_name_of(code))
        if umasks:
            names += [_name_of(mask) for mask in _after(code, ENUM_UMASKS)]
    return names


def preset_events() -> list[str]:
    """The names of the presets that the unit has."""
    return [_name_of(code) for code in _codes(PRESET_MASK) if _is_available(code)]


def user_events() -> list[str]:
    """The names of the user events of the preset file that the unit has."""
    return [_name_of(code) for code in _codes(PRESET_MASK | NATIVE_MASK) if _is_available(code)]


def _name_of(code: int) -> str:
    text = ctypes.create_string_buffer(LONGEST)
    call("PAPI_event_code_to_name", code, text)
    return text.value.decode()


def _codes(kind: int) -> Iterator[int]:
    """The codes of a kind, in order."""
    for first in _after(kind, ENUM_FIRST, most=1):
        yield first
        yield from _after(first, ENUM_EVENTS)


def _after(code: int, modifier: int, most: int | None = None) -> Iterator[int]:
    """The codes after one."""
    place = ctypes.c_int(code)
    while most is None or most > 0:
        try:
            call("PAPI_enum_event", ctypes.byref(place), modifier)
        except ENOEVNT:
            return
        yield place.value
        most = None if most is None else most - 1


def _is_available(code: int) -> bool:
    try:
        call("PAPI_query_event", code)
    except ENOEVNT:
        return False
    return True
