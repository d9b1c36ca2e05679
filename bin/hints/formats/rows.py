"""Which field of a row is out of its form, and what is wanted there (docs/FORMATS.md, The unit
file, The preset file and The map file)."""

from __future__ import annotations

import re
from typing import Mapping

from .causes import (
    BAD_FIELD, BAD_ROW, BAD_WIDTH, BROKEN_FORMULA, NO_CPU, OVER_LIMIT, OVERLAP, REPEATED_NAME,
    UNKNOWN_COUNTER,
)
from .files import Row
from .presets import COMPUTED, READ_ALONE, entry_of
from .texts import near, shown
from .units import MODIFIERS

NAME = r"[A-Za-z0-9_-]{1,64}"
NAME_WANTED = "1 to 64 letters, digits, _ and -"
HEX_WANTED = "one or two hexadecimal digits without 0x"
TEXT_WANTED = "at most 200 characters from a space to ~"
# For each kind of row its fields: what a field is called, its form, and what is wanted.
NAME_FIELD = ("the name", NAME, NAME_WANTED)
TEXT_FIELD = ("the description", r"[ -~]{0,200}", TEXT_WANTED)
COUNTERS_FIELD = ("the list of counters", rf"{NAME}( +{NAME})*", "names with spaces between them")
UNIT_FIELDS = {
    "COMPONENT": (NAME_FIELD, ("the pmu", NAME, NAME_WANTED)),
    "COUNTER": (
        NAME_FIELD, ("the width", r"0|[1-9][0-9]*", "a number from 16 to 48"),
        ("the kind", "[PF]", "P (programmable) or F (fixed)"),
    ),
    "EVENT": (
        NAME_FIELD, ("the select code", r"[0-9A-Fa-f]{1,2}", HEX_WANTED), COUNTERS_FIELD,
        TEXT_FIELD,
    ),
    "UMASK": (
        NAME_FIELD, ("the field of bits", r"[0-9A-Fa-f]{1,2}", HEX_WANTED),
        ("the field of flags", "-|d|n|dn|nd", "-, d, n or dn"), TEXT_FIELD,
    ),
    "UMASK_COUNTERS": (COUNTERS_FIELD,),
    "UMASK_MODIFIERS": (
        ("the field of modifiers", "-|e|i|ei|ie", "-, e, i or ei"),
        (
            "the least amount", r"0|[1-9][0-9]?|1[0-9]{2}|2[0-4][0-9]|25[0-5]",
            "a number from 0 to 255",
        ),
    ),
}
MOST_WIDTH = 1_048_576
MOST_BUCKETS = 65_536
MAP_FIELDS = {
    "RANGE": (
        NAME_FIELD, ("START", r"0x[0-9A-Fa-f]{1,16}", "0x and 1 to 16 hexadecimal digits"),
        ("WIDTH", r"[1-9][0-9]*", f"a number from 1 to {MOST_WIDTH}"),
        ("BUCKETS", r"[1-9][0-9]*", f"a number from 1 to {MOST_BUCKETS}"),
    ),
}
TITLES = {
    "COMPONENT": "name,pmu",
    "COUNTER": "name,width,P",
    "EVENT": "name,select code,counters,description",
    "UMASK": "name,bits,flags,description",
}
TITLES |= {
    "UMASK_COUNTERS": "counters",
    "UMASK_MODIFIERS": "flags,least amount",
    "RANGE": "name,START,WIDTH,BUCKETS",
}
MOST_OF_UNIT = {
    "COMPONENT": "16 components",
    "COUNTER": "32 counters of a component",
    "EVENT": "1,024 events of a component",
    "UMASK": "16 umasks of an event",
}
MOST_NATIVES = 8
OPERATORS = ("+", "-", "*", "/")  # each takes two values


def form_fault(row: Row, forms: Mapping[str, tuple[tuple[str, str, str], ...]]) -> str:
    """Which field of a row is out of its form, or nothing if all are in it."""
    kind, *fields = row.fields()
    form = forms.get(kind)
    if form is None:
        capitals = " (in capitals)" if kind.upper() in forms else ""
        return f"{shown(kind)} stands where {', '.join(forms)} is wanted{capitals}"
    if len(fields) != len(form):
        comma = (
            "; a description has no comma" if len(fields) > len(form) and form[-1] == TEXT_FIELD
            else ""
        )
        return (
            f"the row has {len(fields) + 1} fields, and {len(form) + 1} are wanted: "
            f"{kind},{TITLES[kind]}{comma}"
        )
    for text, (what, wanted_form, wanted) in zip(fields, form):
        if not re.fullmatch(wanted_form, text):
            return (
                f"{what} is {shown(text)}, and {wanted} is wanted" if len(wanted.split()) < 9
                else f"{what} is {shown(text)}; wanted: {wanted}"
            )
    return ""


def unit_fault(rows: list[Row], place: int, cause: str) -> str:
    """What is wrong with a row of a unit file whose cause the program says. All rows above it are
    good."""
    row = rows[place]
    above = [other.fields() for other in rows[:place] if not other.is_skipped()]
    if cause == BAD_ROW:
        return form_fault(row, UNIT_FIELDS) or _place_fault(row.fields(), above)
    fields = row.fields()
    if cause == BAD_WIDTH:
        return f"the width is {shown(fields[2])}, and 16 to 48 is wanted"
    if cause == UNKNOWN_COUNTER:
        if fields[0] == "UMASK_COUNTERS":
            event = next(other for other in reversed(above) if other[0] == "EVENT")
            missing = next(name for name in fields[1].split() if name not in event[3].split())
            return (
                f"{event[1]} does not have the counter "
                f"{shown(missing)}{near(missing, event[3].split())}"
            )
        own = [other[1] for other in _component(above) if other[0] == "COUNTER"]
        missing = next(name for name in fields[3].split() if name not in own)
        return f"no row above has the counter {shown(missing)} in its component{near(missing, own)}"
    if cause == REPEATED_NAME:
        return _repeated(rows, place)
    return f"at most {MOST_OF_UNIT[fields[0]]} are taken" if cause == OVER_LIMIT else ""


def _component(above: list[list[str]]) -> list[list[str]]:
    """The rows from the last COMPONENT row on."""
    starts = [number for number, fields in enumerate(above) if fields[0] == "COMPONENT"]
    return above[starts[-1] :] if starts else []


def _place_fault(fields: list[str], above: list[list[str]]) -> str:
    """For a row whose fields are all in their form."""
    inside = _component(above)
    if fields[0] == "COMPONENT":
        return ""
    if not inside:
        return f"no COMPONENT row stands above this {fields[0]} row"
    kinds = [other[0] for other in inside]
    if fields[0] == "UMASK" and "EVENT" not in kinds:
        return "no EVENT row of its component stands above this UMASK row"
    if fields[0] == "UMASK" and "d" in fields[3]:
        return "another umask of its event is the default (d) already"
    return _umask_fault(fields, inside) if fields[0].startswith("UMASK_") else ""


def _umask_fault(fields: list[str], inside: list[list[str]]) -> str:
    """For a row of the counters or of the modifiers of a umask."""
    kinds = [other[0] for other in inside]
    event: list[list[str]] = next(
        (inside[place:] for place in reversed(range(len(kinds))) if kinds[place] == "EVENT"), []
    )
    own: list[list[str]] = next(
        (event[place:] for place in reversed(range(len(event))) if event[place][0] == "UMASK"), []
    )
    if not own:
        return f"no UMASK row of its event stands above this {fields[0]} row"
    if any(other[0] == fields[0] for other in own):
        return f"the umask {own[0][1]} has a {fields[0]} row already"
    return "it fixes no modifier" if fields[1:] == ["-", "0"] else ""


def _repeated(rows: list[Row], place: int) -> str:
    fields = rows[place].fields()
    if fields[0] == "UMASK" and fields[1].lower() in MODIFIERS:
        return f"{fields[1]} is the name of a modifier"
    is_counter = fields[0] == "COUNTER"
    last = 3 if fields[0] == "COMPONENT" else 2
    for other in reversed(rows[:place]):
        if other.is_skipped() or other.fields()[0] != fields[0]:
            continue
        stood = other.fields()[1:last]
        again = [
            text for text in fields[1:last]
            if text in stood or not is_counter and text.upper() in map(str.upper, stood)
        ]
        if again:
            return (
                f"line {other.line} has the name {again[0]} "
                f"already{'' if is_counter else ', and case makes no difference'}"
            )
    return ""


def map_fault(rows: list[Row], place: int, cause: str) -> str:
    if cause == BAD_ROW:
        return form_fault(rows[place], MAP_FIELDS) or _limit_fault(rows[place].fields())
    if cause not in (REPEATED_NAME, OVERLAP):
        return ""
    own = rows[place].fields()
    for other in rows[:place]:
        fields = other.fields()
        if other.is_skipped():
            continue
        if cause == REPEATED_NAME and fields[1] == own[1]:
            return f"line {other.line} has the name {own[1]} already"
        if cause == OVERLAP and _start(fields) < _end(own) and _start(own) < _end(fields):
            return (
                f"{own[1]} goes {_span(own)}, and {fields[1]} (line {other.line}) {_span(fields)}"
            )
    return ""


def _limit_fault(fields: list[str]) -> str:
    for what, text, most in (
        ("WIDTH", fields[3], MOST_WIDTH), ("BUCKETS", fields[4], MOST_BUCKETS),
    ):
        if int(text) > most:
            return f"{what} is {text}, and a number from 1 to {most} is wanted"
    return f"its addresses go past {(1 << 64) - 1:#x}" if _end(fields) > 1 << 64 else ""


def _span(fields: list[str]) -> str:
    return f"from {_start(fields):#x} to {_end(fields) - 1:#x}"


def _start(fields: list[str]) -> int:
    return int(fields[2], 16)


def _end(fields: list[str]) -> int:
    return _start(fields) + int(fields[3]) * int(fields[4])


def preset_fault(rows: list[Row], place: int, cause: str) -> str:
    kind, *fields = rows[place].fields()
    entry = entry_of(fields)
    if cause == NO_CPU:
        return "a row CPU,name is wanted above it"
    if cause == OVER_LIMIT:
        return (
            f"it has {len(entry.natives)} native events, and at most {MOST_NATIVES} are taken"
            if len(entry.natives) > MOST_NATIVES else ""
        )
    if cause == BROKEN_FORMULA:
        return (
            formula_fault(entry.formula, len(entry.natives)) if entry.kind == "DERIVED_POSTFIX"
            else ""
        )
    if cause != BAD_FIELD:
        return ""
    if entry.kind not in (*COMPUTED, *READ_ALONE):
        return f"the type is {shown(entry.kind)}{near(entry.kind, (*COMPUTED, *READ_ALONE))}"
    if kind.upper() == "EVENT" and not re.fullmatch(r"(?!PAPI_)[A-Za-z0-9_]{1,32}", fields[0]):
        return (
            f"the name is {shown(fields[0])}; wanted: 1 to 32 letters, digits and _, and not PAPI_ "
            "before them"
        )
    odd = next(
        (text for text in (entry.formula, *entry.natives) if not re.fullmatch(r"[ -~]*", text)),
        None,
    )
    return f"{shown(odd)} has a character that is not from a space to ~" if odd is not None else ""


def formula_fault(formula: str, natives: int) -> str:
    """What is wrong with a formula in postfix order."""
    tokens = [token.strip(" \t") for token in formula.split("|")]
    if not tokens[-1]:
        tokens.pop()
    waiting = 0
    for token in tokens:
        if native := re.fullmatch(r"N([0-9]+)", token):
            if int(native[1]) >= natives:
                return (
                    f"{token}: the row has {natives} native event{'' if natives == 1 else 's'}, "
                    "numbered from N0"
                )
            waiting += 1
        elif re.fullmatch(r"[0-9]+", token):
            waiting += 1
        elif token not in OPERATORS:
            return (
                f"{shown(token)} is no token; wanted: N0, N1 .., a number, + - * or /, each ended "
                "by |"
            )
        elif waiting < 2:
            return (
                f"the {token} has {waiting} value{'' if waiting == 1 else 's'} before it, and "
                "takes two"
            )
        else:
            waiting -= 1
    return f"{waiting} values are left at its end, and one is wanted" if waiting != 1 else ""
