"""Which counters an event may stand on, out of perf's event files.

These are the JSON files of a kernel's source in `tools/perf/pmu-events/arch/x86/NAME`. Each is a
list of events. The key `Counter` says `0,1,2,3` for programmable counters and `Fixed counter 1` for
a fixed one, and `CounterHTOff` the same of a core without hyperthreading. An event is matched by
the keys `EventCode` and `UMask` and by its modifiers.
"""

from __future__ import annotations

import json
from dataclasses import dataclass
from typing import Any, Iterator, Sequence

from parts.command import Fault, read_file
from parts.unit_file import NOTHING_FIXED, Fixed

Code = tuple[int, int]  # the select code and the umask

# The numbers that these files of Intel's later processors give the fixed counters begin here.
FIRST_FIXED = 32


@dataclass(frozen=True)
class Places:
    """Numbers of counters."""

    programmable: frozenset[int]
    fixed: frozenset[int]


class CounterTable:
    """The counters of each code with its modifiers that the files name."""

    def __init__(self) -> None:
        self._rows: dict[Code, dict[Fixed, Places]] = {}

    def add(self, code: Code, modifiers: Fixed, places: Places) -> None:
        rows = self._rows.setdefault(code, {})
        rows[modifiers] = _both(rows[modifiers], places) if modifiers in rows else places

    def places(self, code: Code, modifiers: Fixed = NOTHING_FIXED) -> Places | None:
        """Those of the code with these modifiers, else of the code alone, else of the code with
        any."""
        rows = self._rows.get(code)
        if not rows:
            return None
        return rows.get(modifiers) or rows.get(NOTHING_FIXED) or next(iter(rows.values()))

    def is_empty(self) -> bool:
        return not self._rows

    def programmable(self) -> int:
        """How many programmable counters the files speak of."""
        return max(
            (
                number + 1 for rows in self._rows.values() for places in rows.values()
                for number in places.programmable
            ),
            default=0,
        )


def _both(one: Places, other: Places) -> Places:
    """The counters on which both may stand. An event that has a fixed counter besides has it in an
    entry of its own."""
    common = one.programmable & other.programmable
    return Places(common or one.programmable | other.programmable, one.fixed | other.fixed)


def read_event_files(names: Sequence[str], hyperthreading: bool = True) -> CounterTable:
    """The counters of all that the files say. A fault if they say nothing of any."""
    table = CounterTable()
    for name in names:
        for entry in _entries(name):
            _add_entry(table, name, entry, hyperthreading)
    if table.is_empty():
        raise Fault(f"{', '.join(names)}: no event of the core has its counters there")
    return table


def _entries(name: str) -> list[dict[str, Any]]:
    try:
        entries = json.loads(read_file(name))
    except json.JSONDecodeError as error:
        raise Fault(f"{name}: line {error.lineno}: not JSON: {error.msg}") from None
    except (RecursionError, ValueError):
        raise Fault(
            f"{name}: not a list of events: it is nested too deep, or has a number of too many "
            "digits"
        ) from None
    if (
        isinstance(entries, dict) and entries
        and all(isinstance(value, str) for value in entries.values())
    ):
        return []  # metricgroups.json, which lies beside the lists of events
    if not isinstance(entries, list) or not all(isinstance(entry, dict) for entry in entries):
        raise Fault(f"{name}: not a list of events, as perf's event files are")
    if not entries:
        raise Fault(f"{name}: a list without an event")
    for number, entry in enumerate(entries, 1):
        if not entry:
            raise Fault(
                f"{name}: event {number}: it has no key, and perf's event files have EventName, "
                "EventCode, UMask and Counter"
            )
    return entries


def _add_entry(table: CounterTable, name: str, entry: dict[str, Any], hyperthreading: bool) -> None:
    """Takes an event of the core. Those of other units and the metrics, which have no `Counter`,
    are passed over."""
    if "Unit" in entry or "Counter" not in entry:
        return
    event = entry.get("EventName", "an event without a name")
    try:
        places = _places(
            str(entry["Counter"] if hyperthreading else entry.get("CounterHTOff", entry["Counter"]))
        )
        codes = list(_codes(entry))
        modifiers = Fixed(
            _number_of(entry, "EdgeDetect") != 0, _number_of(entry, "Invert") != 0,
            _number_of(entry, "CounterMask"),
        )
        of_any_thread = _number_of(entry, "AnyThread") != 0
    except ValueError:
        raise Fault(
            f"{name}: {event}: EventCode, UMask, Counter or a modifier has no number where one "
            "belongs"
        ) from None
    for code in codes if (places.programmable or places.fixed) and not of_any_thread else []:
        table.add(code, modifiers, places)


def _codes(entry: dict[str, Any]) -> Iterator[Code]:
    umask = _number(str(entry.get("UMask", "0")).split(",")[0])
    for text in str(entry.get("EventCode", "0")).split(","):
        yield _number(text), umask


def _number(text: str) -> int:
    return int(text.strip(), 0)


def _number_of(entry: dict[str, Any], field: str) -> int:
    return _number(str(entry.get(field, "0")))


def _places(text: str) -> Places:
    words = text.strip().lower().removeprefix("fixed counter")
    if words.strip() == "fixed":
        return Places(frozenset(), frozenset())
    numbers = frozenset(int(word) for word in words.split(",") if word.strip())
    if text.strip().lower().startswith("fixed"):
        return Places(frozenset(), numbers)
    programmable = frozenset(number for number in numbers if number < FIRST_FIXED)
    return Places(
        programmable, frozenset(number - FIRST_FIXED for number in numbers - programmable)
    )
