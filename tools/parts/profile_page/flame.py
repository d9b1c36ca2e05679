"""A flame graph of a profile: each function below those that call it, as wide as what it did there.

A profile has calls between two functions, and no chains of them. A function that several ones call
has what it did shared out among them by the counts of their calls, and what it called in the same
parts, as programs do that draw files of callgrind.
"""

from __future__ import annotations

from collections import defaultdict
from dataclasses import dataclass, field
from typing import Sequence

from formats.texts import plain
from parts.code_profile import FunctionKey
from parts.profile_counts import ProfileCounts, ProfiledFunction
from parts.report.markup import Markup, element
from parts.report.numbers import shown

LEAST = 1 / 1000  # of the whole, of a function that is drawn
DEEPEST = 100
TONES = 8


@dataclass
class Frame:
    """A function where others called it. Its count is exact if nothing of it had to be shared."""

    name: str
    count: float
    place: str = ""
    is_exact: bool = True
    is_inlined: bool = False
    inner: list[Frame] = field(default_factory=list)


class _Graph:
    """What each function did by one event, by itself and in its calls of each other."""

    def __init__(self, profile: ProfileCounts, event: str):
        self.functions = {each.key: each for each in profile.functions}
        self.whole = {each.key: each.inclusive[event] for each in profile.functions}
        self.calls: dict[FunctionKey, dict[FunctionKey, int]] = defaultdict(dict)
        self.called: dict[FunctionKey, int] = defaultdict(int)
        self.inlined: dict[FunctionKey, list[tuple[str, int]]] = defaultdict(list)
        for call in profile.calls:
            way, to = self.calls[call.caller.key], call.callee.key
            if to != call.caller.key:
                way[to] = way.get(to, 0) + call.inclusive[event]
                self.called[to] += call.inclusive[event]
        for each in profile.inlined:
            self.inlined[each.function.key].append((each.name, each.own[event]))

    def roots(self) -> list[tuple[ProfiledFunction, int]]:
        """The functions that nobody called, or not always, and what they did then."""
        parts = ((each, self.whole[key] - self.called[key]) for key, each in self.functions.items())
        return [(each, part) for each, part in parts if part > 0]


class _Growing:
    def __init__(self, graph: _Graph, least: float):
        self.graph, self.least = graph, least

    def frame(
        self, of: ProfiledFunction, count: float, is_exact: bool, path: tuple[FunctionKey, ...]
    ) -> Frame:
        whole = self.graph.whole[of.key]
        part = count / whole if whole else 0.0
        made = Frame(of.name, count, of.place(), is_exact and count == whole)
        if len(path) < DEEPEST:
            made.inner = self._inner(made, of.key, part, (*path, of.key))
        return made

    def _inner(
        self, made: Frame, key: FunctionKey, part: float, path: tuple[FunctionKey, ...]
    ) -> list[Frame]:
        ways = [(to, n * part) for to, n in self.graph.calls[key].items() if to not in path]
        inlined = [(name, n * part) for name, n in self.graph.inlined[key]]
        total = sum(count for _, count in (*ways, *inlined))
        fits = min(1.0, made.count / total) if total > 0 else 1.0  # else in calls of themselves
        found = [
            Frame(name, n * fits, "inlined", made.is_exact and fits == 1, True)
            for name, n in inlined
            if n * fits >= self.least
        ]
        found += [
            self.frame(self.graph.functions[to], n * fits, made.is_exact and fits == 1, path)
            for to, n in ways
            if n * fits >= self.least
        ]
        return sorted(found, key=lambda each: (-each.count, each.name, each.place))


def flame_of(profile: ProfileCounts, event: str, total: int) -> Frame:
    """All that counted, with the functions that nobody called as the first ones."""
    graph = _Graph(profile, event)
    growing = _Growing(graph, max(total * LEAST, 1e-9))
    whole = Frame("all", float(total))
    roots = sorted(graph.roots(), key=lambda root: (-root[1], root[0].name, root[0].key))
    whole.inner = [
        growing.frame(of, float(part), True, ()) for of, part in roots if part >= growing.least
    ]
    return whole


def draw_flame(profile: ProfileCounts, event: str, total: int, number: int) -> Markup:
    """Boxes within boxes, which are as wide as their part of the one around them."""
    drawn = _drawn(flame_of(profile, event, total), 1.0, total, 0)
    return element("div", drawn, class_="flame", data_event=number)


def _told(frame: Frame, total: int) -> str:
    about = "" if frame.is_exact else "about "
    share = 100 * frame.count / total if total else 0
    place = f" ({plain(frame.place)})" if frame.place else ""
    return f"{plain(frame.name)}{place}: {about}{shown(round(frame.count))}, {share:.2f} %"


def _drawn(frame: Frame, part: float, total: int, depth: int) -> Markup:
    tone = "inlined" if frame.is_inlined else f"fill{depth % TONES}"
    inner: Sequence[Markup] = [
        _drawn(each, each.count / frame.count if frame.count else 0, total, depth + 1)
        for each in frame.inner
    ]
    label = element(
        "button",
        plain(frame.name),
        type="button",
        class_=f"bar-of {tone}",
        title=_told(frame, total),
        data_count=round(frame.count),
    )
    below = [element("div", inner, class_="below")] if inner else []
    return element("div", label, below, class_="part", style=f"width:{100 * part:.4f}%")
