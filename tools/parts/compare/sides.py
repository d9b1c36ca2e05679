"""What was counted once, as it is compared: by whole, by function or by region."""

from __future__ import annotations

from dataclasses import dataclass
from typing import Mapping

from parts.command import Fault

APART = 2  # the status where two files can't be compared
WHOLE = ""  # the name of a whole program

Counts = Mapping[str, int]  # by event
Rows = Mapping[str, Counts]  # by the name of a function or a region


def unfit(text: str) -> Fault:
    """The fault of files that can't be compared."""
    return Fault(text, APART)


@dataclass(frozen=True)
class Trait:
    """What decides whether two sides can be compared, and how it is shown."""

    decides: str
    shown: str


def traits(words: Mapping[str, str]) -> dict[str, Trait]:
    """Traits that are shown as they are."""
    return {name: Trait(word, word) for name, word in words.items()}


@dataclass(frozen=True)
class Side:
    """BASE or NEW. `same` must be the same on both sides. What may differ is told."""

    name: str
    form: str
    same: Mapping[str, Trait]
    may_differ: Mapping[str, str]
    events: tuple[str, ...]
    more_events: tuple[str, ...]  # compared only if they are asked for
    rows: Mapping[str, Rows]  # by the word of --by
