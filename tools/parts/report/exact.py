"""What multiplexed sets would have counted without turns: the same calls over a unit whose events
are allowed any of many counters."""

from __future__ import annotations

from dataclasses import replace
from typing import Sequence

from formats.files import Unread, read_table
from formats.scripts import calls_of
from parts.command import Fault
from parts.report.asking import Tools
from parts.report.replies import Step, read_replies
from parts.report.story import Story, tell_story
from parts.unit_file import MOST_BYTES

COUNTERS = "0123456789abcdefghijklmnopqrstuv"  # 32, as many as a set has native events
BITS = 48
# Calls that are refused of a set without turns, or say something else of it.
LEFT_OUT = ("multiplex", "assign", "raw", "state")


def unlimited_unit(unit: str) -> list[str] | None:
    """The rows of a unit file with 32 counters for each event, or none if they are too many bytes
    for one."""
    rows: list[str] = []
    try:
        table = read_table(unit)
    except (Unread, OSError):
        return None
    for row in table:
        kind, *fields = row.fields()
        if kind == "COMPONENT":
            rows += [
                f"COMPONENT,{fields[0]},{fields[1]}",
                *(f"COUNTER,{name},{BITS},P" for name in COUNTERS),
            ]
        elif kind == "EVENT":
            rows.append(f"EVENT,{fields[0]},{fields[1]},{' '.join(COUNTERS)},")
        elif kind == "UMASK":
            rows.append(f"UMASK,{fields[0]},{fields[1]},{fields[2]},")
    return rows if sum(len(row) + 1 for row in rows) <= MOST_BYTES else None


def exact_story(tools: Tools, steps: Sequence[Step], streams: Sequence[str]) -> Story | None:
    """The story of the calls that were carried out, with no set in turns. None if it can't be
    told."""
    unit = unlimited_unit(tools.tables.unit)
    script = [
        " ".join((str(step.call.thread), step.call.name, *step.call.arguments)) for step in steps
        if not step.is_refused and step.call.name not in LEFT_OUT
    ]
    if unit is None or not script:
        return None
    try:
        with Tools(replace(tools.tables, unit=tools.written("unlimited.unit", unit))) as others:
            exact, _ = read_replies(calls_of(script), others.run(script, streams).lines)
    except Fault:
        return None
    if any(step.is_refused for step in exact):
        return None
    return tell_story(
        exact, [None] * len(exact), [],
        None if any(step.call.name == "events" for step in exact) else tools.name_in_set,
    )
