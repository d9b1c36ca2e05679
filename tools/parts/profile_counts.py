"""A profile by events: each function, what is inlined in it, each line of source, and each call."""

from __future__ import annotations

from collections import Counter
from dataclasses import dataclass
from typing import Any, Callable, Mapping, Sequence

from formats.texts import plain
from parts.code_profile import CodeProfile, FunctionKey
from parts.count_table import NAME_WIDTH
from parts.event_sums import Sum, added_up
from parts.whole_counts import Counts

MOST_SHOWN, MOST_INLINED = 30, 10  # functions of a table


@dataclass(frozen=True)
class ProfiledFunction:
    key: FunctionKey
    name: str
    file: str
    line: int
    calls: int
    own: Counts
    inclusive: Counts

    def place(self) -> str:
        return f"{self.file}:{self.line}" if self.file else self.key[0]


@dataclass(frozen=True)
class ProfiledLine:
    function: ProfiledFunction
    file: str
    line: int
    inlined: str  # the innermost function that is inlined there, or nothing
    own: Counts


@dataclass(frozen=True)
class ProfiledInlined:
    """What the code of an inlined function does in the function that has it."""

    name: str
    function: ProfiledFunction
    own: Counts


@dataclass(frozen=True)
class ProfiledCalls:
    caller: ProfiledFunction
    file: str
    line: int
    callee: ProfiledFunction
    count: int
    inclusive: Counts


@dataclass(frozen=True)
class ProfileCounts:
    """Functions and lines by falling counts of the first event, and then by their names."""

    functions: tuple[ProfiledFunction, ...]
    lines: tuple[ProfiledLine, ...]
    calls: tuple[ProfiledCalls, ...]
    inlined: tuple[ProfiledInlined, ...]


def profile_counts(profile: CodeProfile, sums: Sequence[Sum]) -> ProfileCounts:
    first = sums[0].name

    def counts(kinds: Counter[str]) -> Counts:
        return {each.name: added_up(each.weights, kinds) for each in sums}

    own: dict[FunctionKey, Counter[str]] = {}
    inlined: dict[tuple[FunctionKey, str], Counter[str]] = {}
    for (key, _, _, name), kinds in profile.lines.items():
        own.setdefault(key, Counter()).update(kinds)
        if name:
            inlined.setdefault((key, name), Counter()).update(kinds)
    found = {
        key: ProfiledFunction(
            key,
            each.name(),
            each.file,
            each.line,
            each.calls,
            counts(own.get(key, Counter())),
            counts(each.inclusive),
        )
        for key, each in profile.functions.items()
        if each.calls or key in own or each.inclusive
    }
    functions = sorted(found.values(), key=lambda each: (-each.own[first], each.name, each.key))
    lines = [
        ProfiledLine(found[key], file, line, name, counts(kinds))
        for (key, file, line, name), kinds in profile.lines.items()
    ]
    lines.sort(
        key=lambda each: (-each.own[first], each.file, each.line, each.function.key, each.inlined)
    )
    inner = [ProfiledInlined(name, found[key], counts(of)) for (key, name), of in inlined.items()]
    inner.sort(key=lambda each: (-each.own[first], each.name, each.function.key))
    calls = _calls(profile, found, counts)
    return ProfileCounts(tuple(functions), tuple(lines), calls, tuple(inner))


def _calls(
    profile: CodeProfile,
    found: Mapping[FunctionKey, ProfiledFunction],
    counts: Callable[[Counter[str]], Counts],
) -> tuple[ProfiledCalls, ...]:
    ways = sorted(way for way in profile.calls if way[0][0] in found and way[1] in found)
    return tuple(
        ProfiledCalls(
            found[key],
            file,
            line,
            found[to],
            profile.calls[place, to].count,
            counts(profile.calls[place, to].inclusive),
        )
        for place, to in ways
        for key, file, line, _ in (place,)
    )


def as_further_json(profile: ProfileCounts) -> dict[str, Any]:
    """The keys that a profile adds to the form of counts."""
    return {
        "functions": [
            {
                "name": each.name,
                "object": each.key[0],
                "file": each.file or None,
                "line": each.line or None,
                "calls": each.calls,
                "own": dict(each.own),
                "inclusive": dict(each.inclusive),
            }
            for each in profile.functions
        ],
        "lines": [
            {
                "file": each.file,
                "line": each.line,
                "function": each.function.name,
                "object": each.function.key[0],
                "inlined": each.inlined or None,
                "own": dict(each.own),
            }
            for each in profile.lines
            if each.file
        ],
        "inlined": [
            {
                "name": each.name,
                "function": each.function.name,
                "object": each.function.key[0],
                "own": dict(each.own),
            }
            for each in profile.inlined
        ],
        "calls": [
            {
                "function": each.caller.name,
                "object": each.caller.key[0],
                "file": each.file or None,
                "line": each.line or None,
                "to": {"function": each.callee.name, "object": each.callee.key[0]},
                "calls": each.count,
                "inclusive": dict(each.inclusive),
            }
            for each in profile.calls
        ],
    }


def profile_table(profile: ProfileCounts, total: Counts) -> str:
    """The functions that do most by themselves."""
    events = list(total)
    first = events[0]
    listed = profile.functions[:MOST_SHOWN]
    heads = [f"own {event}" for event in events]
    widths = [max(len(head), 15) for head in heads]
    incl = f"with calls {first}"
    head = "  ".join(
        [heads[0].rjust(widths[0]), "     %", incl, "     calls"]
        + [name.rjust(width) for name, width in zip(heads[1:], widths[1:])]
        + ["function"]
    )
    lines = [f" {head}"]
    for each in listed:
        share = 100 * each.own[first] / total[first] if total[first] else 0
        cells = [f"{each.own[first]:,}".rjust(widths[0]), f"{share:6.2f}"]
        cells += [f"{each.inclusive[first]:,}".rjust(len(incl)), f"{each.calls:>10,}"]
        cells += [
            f"{each.own[event]:,}".rjust(width) for event, width in zip(events[1:], widths[1:])
        ]
        lines.append(
            f" {'  '.join([*cells, f'{plain(each.name):<{NAME_WIDTH}}'])}  {plain(each.place())}"
        )
    if len(profile.functions) > len(listed):
        lines.append(f" and {len(profile.functions) - len(listed):,} more functions")
    return "".join(f"{line}\n" for line in [*lines, "", *_inlined_lines(profile, events)])


def _inlined_lines(profile: ProfileCounts, events: list[str]) -> list[str]:
    """The inlined functions that do most. Those that have them have the same counts."""
    if not profile.inlined:
        return []
    widths = [max(len(event), 15) for event in events]
    heads = [event.rjust(width) for event, width in zip(events, widths)]
    lines = [f" {'  '.join(heads)}  of these in functions that are inlined"]
    for each in profile.inlined[:MOST_INLINED]:
        cells = [f"{each.own[event]:,}".rjust(width) for event, width in zip(events, widths)]
        place = f"{plain(each.name):<{NAME_WIDTH}}  in {plain(each.function.name)}"
        lines.append(f" {'  '.join(cells)}  {place}")
    return [*lines, ""]
