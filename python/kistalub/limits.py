"""How much more of an event a change may cost, in the words of tools/compare: `2%` or `+1000`."""

from __future__ import annotations

import re
from fractions import Fraction

PERCENT = re.compile(r"\d{1,20}(?:\.\d{1,20})?%", re.ASCII)
MORE = re.compile(r"\+\d{1,40}", re.ASCII)


def checked(limit: str) -> str:
    """The limit. ValueError if it is none."""
    if not PERCENT.fullmatch(limit) and not MORE.fullmatch(limit):
        raise ValueError(f"{limit!r} is no limit: a limit is '2%' or '+1000'")
    return limit


def is_over(limit: str, base: int, new: int) -> bool:
    """Whether a count passes a limit. Any increase of a base of 0 passes one in per cent."""
    if limit.startswith("+"):
        return new - base > int(limit)
    return new > base if base <= 0 else 100 * (new - base) > Fraction(limit[:-1]) * base
