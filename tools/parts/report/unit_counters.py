"""The counters of a unit file's components, in their order (docs/FORMATS.md, The unit file)."""

from __future__ import annotations

from dataclasses import dataclass

from formats.files import Unread, read_table
from parts.command import Fault
from parts.report.asking import NOT_TWICE


@dataclass(frozen=True)
class Counter:
    name: str
    bits: str
    is_fixed: bool


def read_counters(unit: str) -> dict[str, list[Counter]]:
    """The counters of each pmu of a unit file that the program took."""
    counters: dict[str, list[Counter]] = {}
    pmu = ""
    try:
        rows = read_table(unit)
    except (Unread, OSError):
        raise Fault(f"{unit}: {NOT_TWICE}") from None
    for row in rows:
        kind, *fields = row.fields()
        if kind == "COMPONENT":
            pmu = fields[1]
            counters[pmu] = []
        elif kind == "COUNTER":
            counters[pmu].append(Counter(fields[0], fields[1], fields[2] == "F"))
    return counters


def pmu_of(native: str) -> str:
    return native.partition("::")[0]
