"""The lines of scripts and region scripts, and what is wrong with one of them (docs/FORMATS.md, The
script and The region script)."""

from __future__ import annotations

import re
from dataclasses import dataclass
from typing import Mapping

from .causes import BAD_ARGUMENTS, BAD_NUMBER, BAD_THREAD, UNKNOWN_CALL
from .forms import papi_calls
from .texts import near, shown

# tools/make_calls: begin
CALLS: dict[str, tuple[str, ...]] = {
    "register": (), "unregister": (), "threads": (), "create": (), "destroy": ("SET",),
    "cleanup": ("SET",), "add": ("SET", "EVENT"), "remove": ("SET", "EVENT"),
    "component": ("SET", "COMPONENT"), "domain": ("SET", "BITS"), "multiplex": ("SET", "SLICE"),
    "overflow": ("SET", "EVENT", "THRESHOLD"), "start": ("SET",), "stop": ("SET",),
    "read": ("SET",), "accum": ("SET",), "reset": ("SET",), "state": ("SET",), "events": ("SET",),
    "assign": ("SET",), "raw": ("SET", "COUNTER"), "run": ("N",), "code": ("EVENT",),
    "name": ("CODE",),
}
# tools/make_calls: end
REGION_CALLS: dict[str, tuple[str, ...]] = {
    "begin": ("NAME",),
    "read": ("NAME",),
    "end": ("NAME",),
    "run": ("N",),
}
THREAD = re.compile(r"[0-9]|[1-5][0-9]|6[0-3]")
NUMBER = re.compile(r"0|[1-9][0-9]*")
CODE = re.compile(r"0x[0-9A-Fa-f]{1,8}")
REGION_NAME = re.compile(r"[A-Za-z0-9_-]{1,64}")
EVENT = re.compile(r"[!-~]+")
BITS_OF = {"THRESHOLD": 64}
MOST_BITS = 32


@dataclass(frozen=True)
class Call:
    """A line of a script that the program took."""

    line: int
    thread: int
    name: str
    arguments: tuple[str, ...]


def words_of(text: str) -> list[str]:
    return re.findall(r"[^ \t]+", text)


def is_call(text: str) -> bool:
    return bool(text) and not text.startswith("#")


def calls_of(lines: list[str]) -> list[Call]:
    """The calls of the lines that have the form of one."""
    calls = []
    for number, text in enumerate(lines, start=1):
        words = words_of(text)
        if is_call(text) and len(words) > 1 and THREAD.fullmatch(words[0]):
            calls.append(Call(number, int(words[0]), words[1], tuple(words[2:])))
    return calls


def is_of_script(text: str) -> bool:
    """Whether a line begins as a call of a script or of a region script."""
    words = words_of(text)
    return (
        len(words) > 1 and bool(THREAD.fullmatch(words[0]))
        and (words[1] in CALLS or words[1] in REGION_CALLS)
    )


def line_fault(text: str, cause: str, calls: Mapping[str, tuple[str, ...]]) -> str:
    """What is wrong with a line whose cause the program says, or nothing if the cause says it
    all."""
    words = words_of(text)
    if not words:
        return "the line has spaces alone; an empty line has none"
    thread, name, *arguments = [*words, ""][: max(2, len(words))]
    if cause == BAD_THREAD:
        return (
            f"{shown(thread)} stands where the thread is wanted, 0 to 63: 0 "
            f"{thread.lower() if thread.lower() in calls else next(iter(calls))}"
        )
    if cause == UNKNOWN_CALL:
        return (
            _unknown_call(name, calls) if name
            else f"no call stands after the thread{near('', calls)}"
        )
    if name not in calls:
        return ""
    if cause == BAD_ARGUMENTS:
        return _arguments_fault(name, arguments, calls[name])
    if cause == BAD_NUMBER:
        return next(
            (
                fault for kind, text in zip(calls[name], arguments)
                if (fault := _number_fault(kind, text))
            ),
            "",
        )
    return ""


def _unknown_call(name: str, calls: Mapping[str, tuple[str, ...]]) -> str:
    if name.lower() in calls:
        return f"there is no call {shown(name)} (calls are in lower case)"
    wanted = name.lower().removeprefix("papi_")
    for tool, its_calls, kind in (
        ("papi_run", CALLS, "script"), ("papi_regions", REGION_CALLS, "region script"),
    ):
        for function, call in papi_calls(tool).items():
            if wanted == function.lower().removeprefix("papi_") and name not in its_calls:
                place = "here" if its_calls is calls else f"in a {kind}, which {tool} carries out"
                return f"{function} is {call} {place}: T {' '.join((call, *its_calls[call]))}"
    return f"there is no call {shown(name)}{near(name, calls)}"


def _arguments_fault(name: str, arguments: list[str], wanted: tuple[str, ...]) -> str:
    if len(arguments) != len(wanted):
        return (
            f"{name} takes {' '.join(wanted) or 'nothing'} after it: T {' '.join((name, *wanted))}"
        )
    for kind, text in zip(wanted, arguments):
        if kind == "NAME" and not REGION_NAME.fullmatch(text):
            return f"{shown(text)}: the name of a region has 1 to 64 letters, digits, _ and -"
        if kind == "EVENT" and not EVENT.fullmatch(text):
            return f"{shown(text)}: the name of an event has characters from ! to ~"
    return ""


def _number_fault(kind: str, text: str) -> str:
    if kind in ("EVENT", "NAME"):
        return ""
    if kind == "CODE":
        return (
            "" if CODE.fullmatch(text)
            else f"{shown(text)} stands where a code is wanted: 0x and 1 to 8 hexadecimal digits"
        )
    bits = BITS_OF.get(kind, MOST_BITS)
    if NUMBER.fullmatch(text) and len(text) <= 20 and int(text) < 1 << bits:
        return ""
    return (
        f"{shown(text)} stands where {kind} is wanted: a number from 0 to {(1 << bits) - 1}, "
        "without a sign or leading zeros"
    )


def region_fault(lines: list[str], last: int) -> str:
    """Which region is the innermost open one if a line reads or ends another, or at the end of the
    file."""
    is_end = last > len(lines) or not is_call(lines[last - 1])
    thread = -1 if is_end else calls_of(lines[last - 1 : last])[0].thread
    open_regions: dict[int, list[str]] = {}
    for call in calls_of(lines[: last - 1]):
        regions = open_regions.setdefault(call.thread, [])
        if call.name == "begin":
            regions.append(call.arguments[0])
        elif call.name == "end":
            regions.pop()
    if is_end:
        left = [
            f"{thread} end {region}" for thread, regions in sorted(open_regions.items())
            for region in reversed(regions)
        ]
        return f"missing at the end: {', '.join(left)}"
    regions = open_regions.get(thread, [])
    return (
        f"the innermost open region of thread {thread} is {regions[-1]}" if regions
        else f"no region of thread {thread} is open there"
    )
