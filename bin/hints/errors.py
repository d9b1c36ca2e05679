"""Hints on what the program wrote on standard error: the line of the file, and what is wrong with
it."""

from __future__ import annotations

import os
import re
from typing import Callable

from formats.causes import NOT_ENDED, WRONG_REGION, one_of
from formats.files import Unread, line_of, read_lines, read_table
from formats.rows import map_fault, preset_fault, unit_fault
from formats.scripts import CALLS, REGION_CALLS, is_of_script, line_fault, region_fault
from formats.streams import is_of_stream, stream_fault
from formats.texts import cut, near, shown
from formats.words import Words

NO_FILE = re.compile(r"papi: no such file: (.*)")
ROW = re.compile(r"papi: (.*): row ([0-9]+): (.*)")
LINE = re.compile(r"papi: (.*): line ([0-9]+): (.*)")
# A script may have the name `stream 0`. The causes tell a line of a stream from one of a script.
STREAM = re.compile(rf"papi: stream ([0-9]+): line ([0-9]+): ({one_of('stream')})")
ROW_FAULTS = {"-U": unit_fault, "-P": preset_fault, "-M": map_fault}
MARK = "\ufeff"
OF_MARK = (
    "{} begins with a byte order mark (the bytes EF BB BF), which this file may not have: save it "
    "as UTF-8 without one"
)
MOST_STREAMS = 3  # of which faults are shown


def error_hints(read: Words, said: list[str]) -> list[str]:
    hints: list[str] = []
    for line in said:
        if found := STREAM.fullmatch(line):
            if len(hints) < 2 * MOST_STREAMS:
                hints += _of_file(_stream_hints, read, int(found[1]), int(found[2]), found[3])
        elif found := ROW.fullmatch(line):
            hints += _of_file(_row_hints, read, found[1], int(found[2]), found[3])
        elif found := LINE.fullmatch(line):
            hints += _of_file(_line_hints, read, found[1], int(found[2]), found[3])
        elif found := NO_FILE.fullmatch(line):
            hints += _of_file(_missing_file_hints, found[1])
    return hints


def _of_file(hints: Callable[..., list[str]], *known: object) -> list[str]:
    """The hints of a file that can be read, and none of another."""
    try:
        return hints(*known)
    except (Unread, OSError):
        return []


def _shown_line(name: str, number: int, text: str) -> str:
    return f"{cut(name)}:{number}: {cut(text)}"


def _row_hints(read: Words, name: str, number: int, cause: str) -> list[str]:
    rows = read_table(name)
    if not 1 <= number <= len(rows):
        return []
    row = rows[number - 1]
    # The same file may have been given for several tables. The first of them whose form the row
    # does not have is at fault.
    faults = (
        ROW_FAULTS[option](rows, number - 1, cause) for option in ROW_FAULTS
        if read.options.get(option) == name
    )
    fault = next(filter(None, faults), "")
    return [_shown_line(name, row.line, row.text)] + [fault] * bool(fault)


def _line_hints(read: Words, name: str, number: int, cause: str) -> list[str]:
    lines = read_lines(name)
    text = lines[number - 1] if number <= len(lines) else ""
    if text.startswith(MARK):
        return [OF_MARK.format(cut(name))]
    if is_of_stream(text):
        return [
            _shown_line(name, number, text),
            "this is a line of a stream: the script stands before the streams",
        ]
    if cause in (WRONG_REGION, NOT_ENDED):
        fault = region_fault(lines, number)
    else:
        fault = line_fault(
            lines[number - 1], cause, REGION_CALLS if "--events" in read.options else CALLS
        )
    there = (
        [_shown_line(name, number, lines[number - 1])] if number <= len(lines) and lines[number - 1]
        else []
    )
    return there + [fault] * bool(fault)


def _stream_hints(read: Words, thread: int, number: int, cause: str) -> list[str]:
    name = read.others[1 + thread]
    text, has_stamps = line_of(name, number)
    if text.startswith(MARK):
        return [OF_MARK.format(cut(name))]
    if is_of_script(text):
        return [
            _shown_line(name, number, text),
            "this is a call of a script, which stands before the streams",
        ]
    fault = stream_fault(text, has_stamps, cause)
    return [_shown_line(name, number, text)] + [fault] * bool(fault)


def _missing_file_hints(name: str) -> list[str]:
    """Where the file was looked for, and what is there."""
    folder = os.path.dirname(name)
    place = os.path.abspath(folder)
    if not os.path.isdir(place):
        return [
            f"there is no folder {shown(folder)}"
            + ("" if os.path.isabs(name) else f" in {cut(os.getcwd())}")
        ]
    try:
        names = sorted(os.listdir(place))
    except OSError:
        names = []
    return [
        f"{cut(place)} has no file "
        f"{shown(os.path.basename(name))}{near(os.path.basename(name), names)}"
    ]
