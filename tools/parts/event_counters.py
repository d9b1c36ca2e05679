"""The counters of a code in a unit: what perf's event files, the kernel's tables and Intel's manual
say of them together."""

from __future__ import annotations

from parts.linux_source import ConstraintTable
from parts.perf_events import Code, CounterTable, Places
from parts.unit_file import Fixed

# Intel's architectural events and their fixed counters, where no table of the kernel is given. The
# third has no programmable one.
FIXED_BESIDE: dict[Code, int] = {(0xC0, 0x00): 0, (0x3C, 0x00): 1}
FIXED_ALONE: dict[Code, int] = {(0x00, 0x03): 2}


class EventCounters:
    """Each source of counters takes some away. Where none speaks of a code, each programmable
    counter is allowed."""

    def __init__(
        self, programmable: int, fixed: int, files: CounterTable | None,
        constraints: ConstraintTable | None, held: frozenset[int] = frozenset(),
    ):
        """`held` are fixed counters that are not there."""
        self.programmable = programmable
        self.fixed = frozenset(range(fixed)) - held
        self.files = files
        self.constraints = constraints
        self.known = 0
        self.codes = 0

    def places(self, code: Code, modifiers: Fixed) -> Places:
        everywhere = frozenset(range(self.programmable))
        ruled = self._ruled(code, modifiers) or Places(everywhere, frozenset())
        named = self.files.places(code, modifiers) if self.files else None
        self.codes += 1
        self.known += named is not None
        # The event files give the events of fixed counters codes that the kernel does not use, so
        # its table decides on these if it is there.
        fixed = ruled.fixed | named.fixed if named and not self.constraints else ruled.fixed
        programmable = ruled.programmable & named.programmable if named else ruled.programmable
        if self.constraints and named and named.programmable and not programmable | fixed:
            programmable = ruled.programmable  # Linux goes by its table alone
        return Places(programmable & everywhere, fixed & self.fixed)

    def _ruled(self, code: Code, modifiers: Fixed) -> Places | None:
        """What the kernel's table says, or else Intel's manual of the architectural events."""
        if self.constraints:
            return self.constraints.places(code, modifiers, self.programmable)
        if modifiers != Fixed():
            return None
        if code in FIXED_ALONE and FIXED_ALONE[code] in self.fixed:
            return Places(frozenset(), frozenset({FIXED_ALONE[code]}))
        if code in FIXED_BESIDE:
            return Places(frozenset(range(self.programmable)), frozenset({FIXED_BESIDE[code]}))
        return None


def names_of(places: Places) -> tuple[str, ...]:
    return tuple(
        [f"P{number}" for number in sorted(places.programmable)]
        + [f"F{number}" for number in sorted(places.fixed)]
    )


def union(rows: list[Places]) -> Places:
    return Places(
        frozenset().union(*(row.programmable for row in rows)),
        frozenset().union(*(row.fixed for row in rows)),
    )
