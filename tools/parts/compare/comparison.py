"""Two sides beside each other: whether they can be compared, what differs, what is over a limit."""

from __future__ import annotations

import os
from dataclasses import dataclass
from typing import Iterator

from parts.compare.counts import is_counts, read_counts
from parts.compare.limits import Limit, limits_of
from parts.compare.reading import read_json
from parts.compare.regions import is_region_file, read_folder, read_region_file
from parts.compare.sides import Side, unfit

WHOLE_LEVEL = "whole"
LEVELS = (WHOLE_LEVEL, "region", "function", "inclusive")
USUAL = {"counts": WHOLE_LEVEL, "regions": "region"}
MOST_TOLD = 20  # names of what one side alone has


@dataclass(frozen=True)
class Row:
    """A count on both sides, or on one of them, and the limits that it passes."""

    name: str
    event: str
    base: int | None
    new: int | None
    passed: tuple[Limit, ...]

    @property
    def difference(self) -> int:
        return (self.new or 0) - (self.base or 0)


@dataclass(frozen=True)
class Comparison:
    """All rows by name and event, what is told beside them, and whether there are limits."""

    base: str
    new: str
    level: str
    rows: list[Row]
    notes: list[str]
    has_limits: bool

    @property
    def over(self) -> int:
        return sum(bool(row.passed) for row in self.rows)


def read_side(name: str) -> Side:
    """A file of counts, a file of regions, or a folder of these."""
    if os.path.isdir(name):
        return read_folder(name)
    place, _ = read_json(name)
    if is_counts(place):
        return read_counts(place)
    if is_region_file(place):
        return read_region_file(place)
    raise unfit(f"{name}: neither counts of a program nor regions of PAPI")


def compare(
    base: Side, new: Side, level: str | None, events: list[str] | None, limits: list[Limit]
) -> Comparison:
    _check(base, new)
    level = level or USUAL[base.form]
    for side in (base, new):
        if level not in side.rows:
            raise unfit(
                f"{side.name}: there are no counts by {level}, but by {' and '.join(side.rows)}"
            )
    chosen = _chosen(base, new, events, limits)
    names = list(dict.fromkeys([*base.rows[level], *new.rows[level]]))
    if not any(name in base.rows[level] and name in new.rows[level] for name in names):
        raise unfit(f"{base.name} and {new.name}: no {level} is in both")
    rows = list(_rows(base, new, level, names, chosen, limits))
    return Comparison(
        base.name,
        new.name,
        level,
        rows,
        [*_differ(base, new), *_alone(base, new, level)],
        bool(limits),
    )


def _check(base: Side, new: Side) -> None:
    """The two sides must have counted in the same way."""
    if base.form != new.form:
        raise unfit(
            f"{base.name} has {base.form}, and {new.name} {new.form}: these can't be compared"
        )
    alone = sorted(set(base.events) ^ set(new.events))
    if alone:
        raise unfit(
            f"{base.name} and {new.name} have other events: only in one of them: "
            + ", ".join(alone[:MOST_TOLD])
        )
    odd = [
        name
        for name in (*base.same, *new.same)
        if name not in base.same
        or name not in new.same
        or base.same[name].decides != new.same[name].decides
    ]
    if odd:
        pair = [side.same[odd[0]].shown if odd[0] in side.same else "none" for side in (base, new)]
        raise unfit(
            f"{base.name} and {new.name} can't be compared: {odd[0]}: {pair[0]}, and {pair[1]}"
        )


def _chosen(base: Side, new: Side, events: list[str] | None, limits: list[Limit]) -> list[str]:
    """The events to compare: those that are named, or all. A limit may name one beside them."""
    more = [event for event in base.more_events if event in new.more_events]
    there = [*base.events, *more]
    named = [limit.event for limit in limits if limit.event is not None]
    for event in (*(events or ()), *named):
        if event not in there:
            raise unfit(
                f"{base.name} and {new.name}: no event {event}: there are {', '.join(there)}"
            )
    if events is None:
        return [event for event in there if event not in more or event in named]
    left_out = [event for event in named if event not in events]
    if left_out:
        raise unfit(f"a limit of {left_out[0]}, which --events leaves out")
    return list(dict.fromkeys(events))


def _rows(
    base: Side, new: Side, level: str, names: list[str], events: list[str], limits: list[Limit]
) -> Iterator[Row]:
    for name in names:
        before, after = base.rows[level].get(name), new.rows[level].get(name)
        for event in events:
            one, other = before[event] if before else None, after[event] if after else None
            own = [
                limit
                for limit in limits_of(event, limits)
                if limit.event is not None or event not in base.more_events
            ]
            yield Row(
                name,
                event,
                one,
                other,
                tuple(limit for limit in own if limit.is_passed(one or 0, other or 0)),
            )


def _differ(base: Side, new: Side) -> Iterator[str]:
    """What may differ and does, with both values."""
    for name in dict.fromkeys([*base.may_differ, *new.may_differ]):
        one, other = base.may_differ.get(name), new.may_differ.get(name)
        if one is not None and other is not None and one != other:
            yield f"{name}: {one} in BASE, {other} in NEW"


def _alone(base: Side, new: Side, level: str) -> Iterator[str]:
    for title, side, other in (("BASE", base, new), ("NEW", new, base)):
        names = [name for name in side.rows[level] if name not in other.rows[level]]
        for name in names[:MOST_TOLD]:
            yield f"{level} {name}: only in {title}"
        if len(names) > MOST_TOLD:
            yield f"{len(names) - MOST_TOLD:,} more are only in {title}"
