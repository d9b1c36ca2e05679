"""Registers of a core that events share: where a unit lets such events stand, so that no more of
them are in a set than there are registers.

Linux lets an event have a register that another one has if both want the same value there. A unit's
rows know no values. So where the values of a processor's events are more than its registers, these
events are kept to as many counters as there are registers: those that the fewest other events need.
"""

from __future__ import annotations

from collections import Counter
from dataclasses import dataclass
from typing import Sequence

from parts.linux_source import Registers
from parts.perf_events import Places


@dataclass(frozen=True)
class Need:
    """What one name needs: its code with its umask, the value of its register if it has one, and
    its counters."""

    code: int
    value: int | None
    places: Places


@dataclass(frozen=True)
class Kept:
    """Codes that are kept to these programmable counters."""

    codes: frozenset[int]
    counters: frozenset[int]

    def places(self, code: int, places: Places) -> Places:
        return (
            Places(places.programmable & self.counters, places.fixed) if code in self.codes
            else places
        )


def keep(
    registers: Sequence[Registers], needs: Sequence[Need], programmable: int
) -> tuple[Kept, ...]:
    """The counters for each group of events that have more values than a core has registers for
    them."""
    crowded = [
        group for group in registers
        if len({need.value for need in needs if need.code in group.codes}) > group.count
    ]
    shared = frozenset(code for group in crowded for code in group.codes)
    load: Counter[int] = Counter()
    for need in needs:
        if (
            need.code not in shared and not need.places.fixed
            and len(need.places.programmable) < programmable
        ):
            load.update(
                {
                    counter: 1000 // len(need.places.programmable)
                    for counter in need.places.programmable
                }
            )
    kept: list[Kept] = []
    for group in crowded:
        own = [need for need in needs if need.code in group.codes]
        allowed = frozenset.intersection(*(need.places.programmable for need in own))
        counters = frozenset(
            sorted(allowed, key=lambda counter: (load[counter], counter))[: group.count]
        )
        load.update({counter: 1000 * len(own) for counter in counters})
        kept.append(Kept(group.codes, counters))
    return tuple(kept)
