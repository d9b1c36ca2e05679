"""How much more of an event a change may cost."""

from __future__ import annotations

import re
from dataclasses import dataclass
from fractions import Fraction

from formats.texts import plain, shown
from parts.command import Fault

PERCENT = re.compile(r"(\d{1,20})(?:\.(\d{1,20}))?%", re.ASCII)
MORE = re.compile(r"\+(\d{1,40})", re.ASCII)
FORMS = "a limit is EVENT=2%, EVENT=+1000, or 2% or +1000 for all events"


@dataclass(frozen=True)
class Limit:
    """So many per cent of the base, or so many occurrences more than it."""

    event: str | None  # all events that have no limit of their own
    text: str
    percent: Fraction | None
    more: int

    def is_passed(self, base: int, new: int) -> bool:
        """Whether the new count is too high. Of a base of 0 or less there are no per cent:
        any increase passes such a limit then."""
        if self.percent is None:
            return new - base > self.more
        return new > base if base <= 0 else 100 * (new - base) > self.percent * base


def read_limit(text: str) -> Limit:
    """The limit that a word says. A name of an event may have `=` in it."""
    name, equals, amount = text.rpartition("=")
    percent, more = PERCENT.fullmatch(amount), MORE.fullmatch(amount)
    if not (percent or more) or equals and not name:
        raise Fault(plain(f"{shown(text)}: {FORMS}"))
    part = Fraction(amount[:-1]) if percent else None
    return Limit(name if equals else None, amount, part, int(more[1]) if more else 0)


def limits_of(event: str, limits: list[Limit]) -> list[Limit]:
    """The limits of an event: its own, or else those of all."""
    return [limit for limit in limits if limit.event == event] or [
        limit for limit in limits if limit.event is None
    ]
