"""Events in so many sets that no set passes a limit: all ways are tried, or a bounded number."""

from __future__ import annotations

from functools import reduce
from operator import gt, or_
from typing import Iterable, Optional, Sequence

Limit = tuple[int, int]  # of the native events of a mask at most so many
State = tuple[tuple[int, ...], ...]


MOST_EVENTS = 100  # of which ways are tried, since each is a call within a call


class GaveUp(Exception):
    """The ways that may be tried were not all."""


class Steps:
    """How many steps may be made, or any number."""

    def __init__(self, most: Optional[int] = None):
        self.left = most

    def take(self) -> None:
        if self.left is None:
            return
        if self.left <= 0:
            raise GaveUp
        self.left -= 1


def ones(mask: int) -> int:
    return bin(mask).count("1")  # (int.bit_count is newer than Python 3.9)


def union(masks: Iterable[int]) -> int:
    return reduce(or_, masks, 0)


def least(events: Sequence[int], limits: Sequence[Limit]) -> int:
    """How many sets there are at least, by each limit for itself."""
    whole = union(events)
    return max([1, *(-(-ones(whole & mask) // most) for mask, most in limits)])


def parted(
    events: Sequence[int], limits: Sequence[Limit], sets: int, steps: Steps
) -> Optional[list[list[int]]]:
    """The places of the events in so many sets, or none if there is no way."""
    if len(events) > MOST_EVENTS:
        raise GaveUp
    return _Search(events, limits, sets, steps).run()


class _Search:
    """Places the events one after another, first those that the fewest sets take. Sets that are
    alike for the events that are left are tried once, and what was tried in vain is not tried
    again."""

    def __init__(self, events: Sequence[int], limits: Sequence[Limit], sets: int, steps: Steps):
        whole = union(events)
        binding = [(mask, most) for mask, most in limits if ones(whole & mask) > most]
        self.masks = [mask for mask, _ in binding]
        self.most = [most for _, most in binding]
        self.events = events
        self.weights = [self._weight(event) for event in events]
        self.sets = [0] * sets
        self.counts = [self._counts(0)] * sets
        self.chosen = [0] * len(events)
        self.vain: set[tuple[frozenset[int], State]] = set()
        self.steps = steps

    def _counts(self, each: int) -> tuple[int, ...]:
        """How many native events of each limit a set has."""
        return tuple(ones(each & mask) for mask in self.masks)

    def _weight(self, event: int) -> tuple[float, int]:
        parts = [count / most for count, most in zip(self._counts(event), self.most)]
        return max(parts, default=0.0), sum(part > 0 for part in parts)

    def run(self) -> Optional[list[list[int]]]:
        if not self._are_placed(frozenset(range(len(self.events)))):
            return None
        found: list[list[int]] = [[] for _ in self.sets]
        for place, number in enumerate(self.chosen):
            found[number].append(place)
        return [places for places in found if places]

    def _are_placed(self, left: frozenset[int]) -> bool:
        """Whether these events have places beside those that are placed."""
        if not left:
            return True
        later = union(self.events[place] for place in left)  # nothing else of a set matters
        states = [(*counts, each & later) for counts, each in zip(self.counts, self.sets)]
        key = (left, tuple(sorted(states)))
        if key in self.vain or not self._has_room(later):
            return False
        self.steps.take()
        place, numbers = self._hardest(left, states)
        if any(self._is_placed(place, number, left) for number in numbers):
            return True
        self.vain.add(key)
        return False

    def _hardest(
        self, left: frozenset[int], states: Sequence[tuple[int, ...]]
    ) -> tuple[int, list[int]]:
        """The event that the fewest sets take, each kind of them counted once, and these sets."""
        kinds: dict[tuple[int, ...], int] = {}
        for number, state in enumerate(states):
            kinds.setdefault(state, number)
        takers = {
            place: [number for number in kinds.values() if self._takes(number, place)]
            for place in sorted(left)
        }
        place = min(takers, key=lambda each: (len(takers[each]), [-w for w in self.weights[each]]))
        return place, takers[place]

    def _takes(self, number: int, place: int) -> bool:
        after = self.sets[number] | self.events[place]
        return not any(map(gt, self._counts(after), self.most))

    def _is_placed(self, place: int, number: int, left: frozenset[int]) -> bool:
        """Whether an event has a place in this set, and the others have places then."""
        before, counts = self.sets[number], self.counts[number]
        self.sets[number] = before | self.events[place]
        self.counts[number], self.chosen[place] = self._counts(self.sets[number]), number
        if self._are_placed(left - {place}):
            return True
        self.sets[number], self.counts[number] = before, counts
        return False

    def _has_room(self, later: int) -> bool:
        """Whether the native events that stand in no set yet are at most the places that are left,
        by each limit for itself."""
        missing = later & ~union(self.sets)
        taken = map(sum, zip(*self.counts))
        sets = len(self.sets)
        return all(
            ones(missing & mask) <= sets * most - count
            for mask, most, count in zip(self.masks, self.most, taken)
        )
