"""What is wrong with a line of a stream (docs/FORMATS.md, The stream)."""

from __future__ import annotations

import re

from .causes import BAD_FIELD, BAD_FIELDS, LONG_LINE
from .texts import shown

DIGITS = "two hexadecimal digits"
FIELDS = (
    ("the component", r"[0-9]|1[0-5]", "a number from 0 to 15"),
    ("the select code", r"[0-9A-Fa-f]{2}", DIGITS),
    ("the umask", r"[0-9A-Fa-f]{2}", DIGITS),
    ("the mode", "[uk]", "u or k"),
    ("the amount", r"[1-9][0-9]?|1[0-9]{2}|2[0-4][0-9]|25[0-5]", "a number from 1 to 255"),
    ("the program counter", r"[0-9A-Fa-f]{1,16}", "1 to 16 hexadecimal digits without 0x"),
)
LAST_STAMP = 4_294_967_294
STAMP = ("the stamp", r"0|[1-9][0-9]{0,9}", f"a number from 0 to {LAST_STAMP}")
MOST_BYTES = 128


def is_of_stream(text: str) -> bool:
    """Whether a line has the form of a stream's, with a stamp or without one."""
    fields = text.split(" ")
    form = (*FIELDS, STAMP)
    return len(fields) in (len(FIELDS), len(form)) and all(
        re.fullmatch(wanted, field) for field, (_, wanted, _) in zip(fields, form)
    )


def stream_fault(text: str, has_stamps: bool, cause: str) -> str:
    """What is wrong with a line whose cause the program says, or nothing if the cause says it
    all."""
    form = (*FIELDS, STAMP) if has_stamps else FIELDS
    fields = text.split(" ")
    if cause == LONG_LINE:
        return f"at most {MOST_BYTES} bytes are a line, comments too"
    if cause == BAD_FIELDS:
        return _number_fault(text, fields, form)
    if cause == BAD_FIELD:
        for number, (field, (what, wanted_form, wanted)) in enumerate(zip(fields, form), start=1):
            if not re.fullmatch(wanted_form, field) or (
                number > len(FIELDS) and int(field) > LAST_STAMP
            ):
                return f"field {number}, {what}, is {shown(field)}, and {wanted} is wanted"
    return ""


def _number_fault(text: str, fields: list[str], form: tuple[tuple[str, str, str], ...]) -> str:
    for what, sign in (("tab", "\t"), ("comma", ",")):
        if sign in text:
            return f"a {what} stands in it; one space stands between two fields"
    if "" in fields:
        empty = fields.index("")
        if not text.strip(" "):
            return "the line has spaces alone; an empty line has none"
        if empty == 0:
            return "a space stands before field 1"
        return (
            f"a space stands after field {empty}, the last one" if not any(fields[empty:])
            else f"two spaces stand after field {empty}"
        )
    stamps = (
        "; a stream with stamps begins with the line: version 2"
        if len(fields) == len(form) + 1 == len(FIELDS) + 1 else ""
    )
    return (
        f"it has {len(fields)} fields, and {len(form)} are wanted: COMP SELECT UMASK MODE AMOUNT "
        f"PC{' STAMP' if len(form) > len(FIELDS) else ''}{stamps}"
    )
