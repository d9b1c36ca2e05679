"""Which umasks a preset file such as PAPI's papi_events.csv names (docs/FORMATS.md, preset
files)."""

from __future__ import annotations

from parts.command import read_file

ROWS_WITH_EVENTS = ("PRESET,", "EVENT,")

Umasks = frozenset[tuple[str, str]]


def umasks_of(name: str) -> set[tuple[str, str]]:
    """The event of a native event's name with each of its attributes, in upper case, such as
    INST_RETIRED and ANY of `skl::INST_RETIRED:ANY`."""
    event, *attributes = name.strip().rpartition("::")[2].upper().split(":")
    return {(event, attribute) for attribute in attributes}


def read_umasks(name: str) -> Umasks:
    """Those that the rows of presets and user events of this file name, whatever their processor
    is."""
    text = read_file(name)
    rows = [line.split(",") for line in text.splitlines() if line.startswith(ROWS_WITH_EVENTS)]
    return frozenset(umask for row in rows for field in row[3:] for umask in umasks_of(field))
