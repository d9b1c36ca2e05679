"""The fewest sets for the events of a component. What fits is what the program takes, and what
does not fit is known from what it refused."""

from __future__ import annotations

from dataclasses import dataclass
from typing import AbstractSet, Callable, Mapping, Optional, Sequence, TypeVar

from parts.command import Fault
from parts.planning.asking import Program, Tried
from parts.planning.limits import MOST_OF_SET, Limit, Limits, masks_of
from parts.planning.search import GaveUp, Steps, least, parted

MOST_EXACT = 24  # events of which all ways are tried
MOST_STEPS = 5_000  # of a search for more of them
MOST_WHY = 2_000  # of all searches for a short reason
MOST_ROUNDS = 200
MOST_ADDS = 20_000  # of the first questions


@dataclass(frozen=True)
class Reason:
    """Why fewer sets are not enough: these events need so many, since a set keeps these limits."""

    events: tuple[str, ...]
    limits: tuple[Limit, ...]
    sets: int


@dataclass(frozen=True)
class Fewest:
    """Sets that the program takes, and how many there are at least."""

    sets: tuple[Tried, ...]
    at_least: int
    reason: Optional[Reason]  # none if one set is enough

    @property
    def is_least(self) -> bool:
        return len(self.sets) == self.at_least


class Component:
    """The events of a component, with their native events, and what is known of its sets."""

    def __init__(self, program: Program, natives_of: Mapping[str, AbstractSet[str]]):
        self.program = program
        self.natives_of = natives_of
        self.events = tuple(natives_of)
        self.limits = Limits(natives_of)
        is_exact = len(self.events) <= MOST_EXACT
        self.most_steps = None if is_exact else MOST_STEPS
        self.most_rounds = None if is_exact else MOST_ROUNDS

    def fewest(self) -> Fewest:
        self._ask_first()
        best = self._one_after_another(self.events)
        if len(best) > self._least_known():
            best = min(best, self._one_after_another(self._hardest_first()), key=len)
        number, rounds = self._least_known(), 0
        while number < len(best):
            try:
                found = self._parted(
                    self.events, self.limits.all(), number, Steps(self.most_steps)
                )
            except GaveUp:
                break
            if found is None:
                number += 1
                continue
            tried = self.program.try_sets(found)
            if not any(each.refused for each in tried):
                best = tried
                break
            rounds += 1
            self._learn(tried)
            if rounds == self.most_rounds:
                break
            number = max(number, self._least_known())
        return Fewest(tuple(best), number, self._reason(number) if number > 1 else None)

    # -- what the program is asked --

    def _ask_first(self) -> None:
        """All events in a set, in orders that begin with each of them, and each two of them."""
        events, count = self.events, len(self.events)
        turns = range(0, count, max(1, count * count // MOST_ADDS))
        sets = [[*events[turn:], *events[:turn]] for turn in turns]
        if count <= MOST_EXACT:
            sets += [[one, other] for at, one in enumerate(events) for other in events[:at]]
        for tried in self.program.try_sets(sets):
            self.limits.learn(tried)

    def _hardest_first(self) -> list[str]:
        """Those before others whose native events are allowed fewer counters."""
        limits = self.limits.all()

        def least_room(event: str) -> int:
            natives = self.natives_of[event]
            told = (each.most for each in limits if each.natives & natives)
            return min(told, default=MOST_OF_SET)

        return sorted(self.events, key=least_room)

    def _one_after_another(self, events: Sequence[str]) -> list[Tried]:
        """Sets that take what those before have left."""
        sets: list[Tried] = []
        left = list(events)
        while left:
            (tried,) = self.program.try_sets([left])
            if not tried.taken:
                raise Fault(f"a set takes {left[0]} alone, and refuses it as the first of some")
            self.limits.learn(tried)
            sets.append(tried)
            left = tried.refused
        return sets

    def _learn(self, tried: Sequence[Tried]) -> None:
        told = [self.limits.learn(each) for each in tried]
        if not any(told):
            names = ", ".join(next(each.refused for each in tried if each.refused))
            raise Fault(f"the program refuses {names}, and what it says of that is not new")

    # -- what follows --

    def _least_known(self) -> int:
        return self._least(self.events, self.limits.all())

    def _least(self, events: Sequence[str], limits: Sequence[Limit]) -> int:
        return least(*masks_of(events, self.natives_of, limits))

    def _parted(
        self, events: Sequence[str], limits: Sequence[Limit], sets: int, steps: Steps
    ) -> Optional[list[list[str]]]:
        """A way to put them into so many sets within the limits. There is none if a limit says so
        for itself, or if all ways were tried."""
        masks, bounds = masks_of(events, self.natives_of, limits)
        if least(masks, bounds) > sets:
            return None
        found = parted(masks, bounds, sets, steps)
        return found and [[events[place] for place in places] for places in found]

    # -- why --

    def _reason(self, sets: int) -> Reason:
        """Few limits and events that need so many sets."""
        steps = Steps(MOST_WHY)

        def need(events: Sequence[str], limits: Sequence[Limit]) -> bool:
            try:
                return self._parted(events, limits, sets - 1, steps) is None
            except GaveUp:
                return False

        limits = self.limits.all()
        alone = [limit for limit in limits if self._least(self.events, [limit]) >= sets]
        limits = alone[:1] or _fewer(limits, lambda some: need(self.events, some))
        events = _fewer(self.events, lambda some: need(some, limits))
        return Reason(tuple(events), tuple(limits), sets)


Item = TypeVar("Item")


def _fewer(items: Sequence[Item], is_enough: Callable[[Sequence[Item]], bool]) -> list[Item]:
    """Items that are enough still, where each part of them that was left out was too much: first
    large parts, from the end, then smaller ones."""
    kept, size = list(items), len(items) // 2
    while size > 0:
        end = len(kept)
        while end > 0:
            without = kept[: max(0, end - size)] + kept[end:]
            if without and is_enough(without):
                kept = without
            end -= size
        size //= 2
    return kept
