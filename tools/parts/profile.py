"""A profile as papi_profil prints it: `range NAME HITS` and its buckets `0xADDRESS HITS`, then
`outside K` and `total N`."""

from __future__ import annotations

import re
from dataclasses import dataclass, field
from typing import Iterable

from parts.command import Fault

HITS = re.compile("[0-9]{1,20}")
ADDRESS = re.compile("0x[0-9a-f]{1,16}")


@dataclass(frozen=True)
class Bucket:
    address: int
    hits: int


@dataclass
class FunctionHits:
    name: str
    hits: int
    buckets: list[Bucket] = field(default_factory=list)

    def hottest(self) -> Bucket | None:
        """The bucket with the most hits, and of these the lowest."""
        return (
            max(self.buckets, key=lambda bucket: (bucket.hits, -bucket.address)) if self.buckets
            else None
        )


@dataclass
class Profile:
    functions: list[FunctionHits] = field(default_factory=list)
    outside: int = 0
    total: int = 0


def read_profile(lines: Iterable[str]) -> Profile:
    profile = Profile()
    ended = ""  # the word of the last line that is not a range's
    for number, line in enumerate(lines, start=1):
        try:
            ended = _take(profile, line.split(), ended)
        except ValueError:
            raise Fault(
                f"standard input: line {number}: not a line of papi_profil's output"
            ) from None
    if ended != "total":
        raise Fault("standard input: the profile does not end with a line `total`")
    _check_sums(profile)
    return profile


def _take(profile: Profile, words: list[str], ended: str) -> str:
    """Takes one line. `outside` stands after all ranges, and `total` after it."""
    *kind, last = words or [""]
    hits = _number(HITS, last, 10)
    if kind == ["outside"] and not ended:
        profile.outside = hits
        return "outside"
    if kind == ["total"] and ended == "outside":
        profile.total = hits
        return "total"
    if ended:
        raise ValueError
    if len(kind) == 2 and kind[0] == "range":
        profile.functions.append(FunctionHits(kind[1], hits))
    elif len(kind) == 1 and profile.functions:
        profile.functions[-1].buckets.append(Bucket(_number(ADDRESS, kind[0], 16), hits))
    else:
        raise ValueError
    return ended


def _number(form: re.Pattern[str], text: str, base: int) -> int:
    """A number as papi_profil writes it: no sign, no blanks, and none that is longer than any of
    its own."""
    if not form.fullmatch(text):
        raise ValueError(text)
    return int(text, base)


def _check_sums(profile: Profile) -> None:
    for function in profile.functions:
        if sum(bucket.hits for bucket in function.buckets) != function.hits:
            raise Fault(
                f"standard input: the buckets of {function.name} do not add up to {function.hits:,}"
            )
    if sum(function.hits for function in profile.functions) + profile.outside != profile.total:
        raise Fault(
            f"standard input: the ranges and what is outside do not add up to {profile.total:,}"
        )
