"""The rows of docs/DIFFERENCES.md as calls and preset files."""

from __future__ import annotations

import re
from dataclasses import dataclass
from pathlib import Path
from typing import Callable

from parts.command import Fault, read_file

A, B, C = "perf::TASK-CLOCK", "perf::PAGE-FAULTS", "perf::CONTEXT-SWITCHES"
SECTIONS = ("Calls", "Presets", "Names")

# The program's unit for these: the same names as those of the kernel's software events, and a
# second component.
UNIT = f"""COMPONENT,perf_event,perf
COUNTER,P0,48,P
COUNTER,P1,48,P
COUNTER,P2,48,P
EVENT,TASK-CLOCK,01,P0 P1 P2,Time of a task
EVENT,PAGE-FAULTS,02,P0 P1 P2,Page faults
EVENT,CONTEXT-SWITCHES,03,P0 P1 P2,Changes of the task
COMPONENT,second,second
COUNTER,M0,48,P
EVENT,OTHER,01,M0,An event of another component
"""
STREAM = "0 01 00 u 200 1\n0 02 00 u 7 1\n" * 5


def read_tables(document: Path) -> list[dict[str, list[str]]]:
    """The first three tables: the cells of each row after its first one, without the marks of
    code."""
    sections = dict(
        re.findall(r"^## (.*)\n((?:(?!^## ).*\n)*)", read_file(str(document)), re.MULTILINE)
    )
    return [_rows(document, sections, section) for section in SECTIONS]


def _rows(document: Path, sections: dict[str, str], section: str) -> dict[str, list[str]]:
    """The rows of all tables of a section. If there is one cell after the first, it is that of both
    sides."""
    if section not in sections:
        raise Fault(f"{document}: there is no section {section}")
    lines = sections[section].splitlines()
    rows = [
        line for line, below in zip(lines, lines[1:] + [""])
        if line.startswith("| ") and not below.startswith("|-")
    ]
    cells = [
        [cell.strip().strip("`") for cell in row.strip().strip("|").split("|")] for row in rows
    ]
    return {row[0].replace("`", ""): (row[1:] * 2)[:2] for row in cells}


Replies = list[str]


def last_code(replies: Replies) -> str:
    return replies[-1].split()[0]


def last_value(replies: Replies) -> str:
    return replies[-1].removeprefix("PAPI_OK ")


def value_or_stop(replies: Replies) -> str:
    """What a `read` after a `stop` gave, in words."""
    value, stopped = last_value(replies), last_value(replies[:-1])
    return (
        "the value 0" if value == "0" else "the value of the stop" if value == stopped
        else f"another value, {value}"
    )


def first_value_or_stop(replies: Replies) -> str:
    """The same of the first event, if a call stood between the two."""
    first = " ".join(replies[-1].split()[:2])
    return value_or_stop([replies[-3], first])


@dataclass(frozen=True)
class Calls:
    """A script without thread numbers, and what its replies show."""

    script: tuple[str, ...]
    shown: Callable[[Replies], str] = last_code


def calls(*script: str, shown: Callable[[Replies], str] = last_code) -> Calls:
    return Calls(script, shown)


READY = ("create", f"add 0 {A}")
STOPPED = READY + ("start 0", "run 5", "stop 0")

CALLS: dict[str, Calls] = {
    "start of a set that runs": calls(*READY, "start 0", "start 0"),
    "start beside another running set of the component": calls(
        *READY, "create", f"add 1 {A}", "start 0", "start 1"
    ),
    "stop of a set that does not run": calls(*READY, "stop 0"),
    "add to a running set": calls(*READY, "start 0", f"add 0 {B}"),
    "cleanup of a running set": calls(*READY, "start 0", "cleanup 0"),
    "destroy of a set with events": calls(*READY, "destroy 0"),
    "read of a set that is not there": calls(*READY, "read 9"),
    "component beyond the last one": calls("create", "component 0 99"),
    "component of a set that has another one": calls(*READY, "component 0 1"),
    "remove of an event that is not in the set": calls(*READY, f"remove 0 {C}"),
    "add of an unknown event": calls("create", "add 0 perf::NO_SUCH"),
    "state of a running set with a threshold": calls(
        *READY, f"overflow 0 {A} 100000", "start 0", "state 0", shown=last_value
    ),
    "read of a set that never ran": calls(*READY, "read 0", shown=value_or_stop),
    "read of a stopped set": calls(*STOPPED, "read 0", shown=value_or_stop),
    "accum of a stopped set, and then read": calls(
        *STOPPED, "accum 0", "read 0", shown=value_or_stop
    ),
    "start of a set without events": calls("create", "start 0"),
    "add of an event that is in the set": calls(*READY, f"add 0 {A}"),
    "add of an event with an unknown attribute": calls("create", f"add 0 {A}:no_such"),
    "add of an unknown event to a running set": calls(*READY, "start 0", "add 0 perf::NO_SUCH"),
    "component that the set has": calls(*READY, "component 0 0"),
    "multiplex of a set without a component": calls("create", "multiplex 0 1000"),
    "overflow of an event that is not in the set": calls(*READY, f"overflow 0 {B} 1000"),
    "overflow at a threshold of 255": calls(*READY, f"overflow 0 {A} 255"),
    "overflow with threshold 0 if none is set": calls(*READY, f"overflow 0 {A} 0"),
    "read of a stopped set to which an event was added": calls(
        *STOPPED, f"add 0 {B}", "read 0", shown=first_value_or_stop
    ),
    "create of a thousandth set": calls(*["create"] * 1000),
}


@dataclass(frozen=True)
class Preset:
    """A row of a preset file for the processor `CPU`, and the preset that is counted. `{CPU}` is
    the processor's CPU row."""

    text: str
    symbol: str


ZERO = "N0|0|*|"  # a count of which nothing is left

PRESETS: dict[str, Preset] = {
    "7 / 2 * 2 in a formula": Preset(
        f"{{CPU}}PRESET,PAPI_TOT_INS,DERIVED_POSTFIX,{ZERO}7|2|/|2|*|+|,{B}\n", "PAPI_TOT_INS"
    ),
    "1 / 0 in a formula": Preset(
        f"{{CPU}}PRESET,PAPI_TOT_INS,DERIVED_POSTFIX,{ZERO}1|0|/|+|,{B}\n", "PAPI_TOT_INS"
    ),
    "a formula that ends too early": Preset(
        f"{{CPU}}PRESET,PAPI_TOT_INS,DERIVED_POSTFIX,N0|+|,{B}\n", "PAPI_TOT_INS"
    ),
    "2 + 3 * 4 in an infix formula": Preset(
        f"{{CPU}}PRESET,PAPI_TOT_INS,DERIVED_INFIX,N0*0+2+3*4,{B}\n", "PAPI_TOT_INS"
    ),
    "7 / 2 * 2 in an infix formula": Preset(
        f"{{CPU}}PRESET,PAPI_TOT_INS,DERIVED_INFIX,N0*0+7/2*2,{B}\n", "PAPI_TOT_INS"
    ),
    "an event that an EVENT row of the preset file defines": Preset(
        f"{{CPU}}EVENT,OWN,NOT_DERIVED,{B}\n", "OWN"
    ),
    "nine native events": Preset(
        "{CPU}PRESET,PAPI_TOT_INS,DERIVED_ADD" + f",{A},{B},{C}" * 3 + "\n", "PAPI_TOT_INS"
    ),
    "a symbol in lower case": Preset(
        f"{{CPU}}PRESET,papi_tot_ins,NOT_DERIVED,{B}\n", "PAPI_TOT_INS"
    ),
    "a type of derivation in lower case": Preset(
        f"{{CPU}}PRESET,PAPI_TOT_INS,not_derived,{B}\n", "PAPI_TOT_INS"
    ),
    "a processor's name in another case": Preset(
        f"{{cpu}}PRESET,PAPI_TOT_INS,NOT_DERIVED,{B}\n", "PAPI_TOT_INS"
    ),
    "NOT_DERIVED with two native events": Preset(
        f"{{CPU}}PRESET,PAPI_TOT_INS,NOT_DERIVED,{B},{A}\n", "PAPI_TOT_INS"
    ),
    "the word preset in lower case": Preset(
        f"{{CPU}}preset,PAPI_TOT_INS,NOT_DERIVED,{B}\n", "PAPI_TOT_INS"
    ),
    "codes of the presets that the program knows": Preset("", ""),
}

# Of the table in docs/FORMATS.md, Symbols, as PAPI's header papiStdEventDefs.h numbers them.
# tools/make_presets: begin
PRESET_CODES = {
    "PAPI_L1_DCM": 0x00, "PAPI_L1_ICM": 0x01, "PAPI_L2_DCM": 0x02, "PAPI_L2_ICM": 0x03,
    "PAPI_L1_TCM": 0x06, "PAPI_L2_TCM": 0x07, "PAPI_L3_TCM": 0x08, "PAPI_TLB_DM": 0x14,
    "PAPI_TLB_IM": 0x15, "PAPI_L1_LDM": 0x17, "PAPI_L1_STM": 0x18, "PAPI_BR_UCN": 0x2A,
    "PAPI_BR_CN": 0x2B, "PAPI_BR_TKN": 0x2C, "PAPI_BR_NTK": 0x2D, "PAPI_BR_MSP": 0x2E,
    "PAPI_BR_PRC": 0x2F, "PAPI_TOT_INS": 0x32, "PAPI_LD_INS": 0x35, "PAPI_SR_INS": 0x36,
    "PAPI_BR_INS": 0x37, "PAPI_RES_STL": 0x39, "PAPI_TOT_CYC": 0x3B, "PAPI_LST_INS": 0x3C,
    "PAPI_FP_OPS": 0x66, "PAPI_REF_CYC": 0x6B,
}
# tools/make_presets: end
NAMES_OF_CODES = tuple(f"name {0x80000000 + code:#x}" for code in PRESET_CODES.values())
