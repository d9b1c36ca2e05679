"""Source files with what each line did, by itself and with what it called."""

from __future__ import annotations

from collections import Counter, defaultdict
from dataclasses import dataclass, field
from typing import Sequence

from formats.texts import plain
from parts.command import counted
from parts.profile_counts import ProfileCounts
from parts.report.markup import LONGEST, Child, Markup, element
from parts.report.numbers import shown
from parts.report.source_lines import lines_of
from parts.whole_counts import Counts

MOST_LINES = 3000  # of all files, with those around them
AROUND = 3


@dataclass
class Line:
    own: Counter[str] = field(default_factory=Counter)
    calls: Counter[str] = field(default_factory=Counter)  # what happened in its calls
    functions: set[str] = field(default_factory=set)

    def with_calls(self, event: str) -> int:
        return self.own[event] + self.calls[event]


@dataclass
class Source:
    file: str
    lines: dict[int, Line] = field(default_factory=lambda: defaultdict(Line))
    texts: list[str] | None = None  # None if it can't be read

    def own(self, event: str) -> int:
        return sum(line.own[event] for line in self.lines.values())

    def numbers(self) -> list[int]:
        """The lines to show: those that counted, and some around them."""
        near = {n for of in self.lines for n in range(of - AROUND, of + AROUND + 1)}
        most = len(self.texts or ())
        return sorted(number for number in near if number in self.lines or 1 <= number <= most)


def sources_of(profile: ProfileCounts, first: str) -> list[Source]:
    """The files of a profile, by falling counts of the first event."""
    found: dict[str, Source] = {}
    for each in profile.lines:
        if each.file:
            line = found.setdefault(each.file, Source(each.file)).lines[each.line]
            line.own.update(each.own)
            inlined = f"{each.inlined} in " if each.inlined else ""
            line.functions.add(f"{inlined}{each.function.name}")
    for call in profile.calls:
        if call.file:
            line = found.setdefault(call.file, Source(call.file)).lines[call.line]
            line.calls.update(call.inclusive)
    for source in found.values():
        source.texts = lines_of(source.file) or None
    return sorted(found.values(), key=lambda source: (-source.own(first), source.file))


def pair(own: int, with_calls: int, event: str, number: int) -> list[Markup]:
    """The cells of an event: nothing in place of 0. On a narrow page each has its label."""
    return [
        element(
            "td",
            shown(count) if count else None,
            class_="number",
            data_event=number,
            data_label=label,
        )
        for count, label in ((own, event), (with_calls, "with calls"))
    ]


def heads(event: str, number: int, *further: str) -> list[Markup]:
    """Above the cells of an event."""
    return [
        element("th", text, scope="col", class_="number", data_event=number)
        for text in (event, "with calls", *further)
    ]


def table_of(head: Child, rows: Sequence[Markup], kind: str) -> Markup:
    top = element("thead", element("tr", head))
    return element("div", element("table", top, element("tbody", rows), class_=kind), class_="wide")


def _row(source: Source, number: int, events: Sequence[str]) -> Markup:
    texts, line = source.texts or [], source.lines.get(number)
    text = texts[number - 1][:LONGEST] if 1 <= number <= len(texts) else ""
    shown_line = line or Line()
    cells = [
        pair(shown_line.own[event], shown_line.with_calls(event), event, place)
        for place, event in enumerate(events)
    ]
    told = plain(", ".join(sorted(line.functions))) if line and line.functions else None
    return element(
        "tr",
        element("td", number, class_="number", title=told, data_label="line"),
        cells,
        element("td", element("code", text) if text else None, class_="main"),
        class_="counts" if line else None,
    )


def _table(source: Source, numbers: Sequence[int], events: Sequence[str]) -> Markup:
    of_events = [heads(event, number) for number, event in enumerate(events)]
    head = [element("th", "line", scope="col"), of_events, element("th", "source", scope="col")]
    rows: list[Markup] = []
    for before, number in zip((None, *numbers), numbers):
        if before is not None and number > before + 1:
            gap = [pair(0, 0, event, place) for place, event in enumerate(events)]
            dots = element("td", "\u2026", class_="main")
            rows.append(element("tr", element("td"), gap, dots, class_="gap"))
        rows.append(_row(source, number, events))
    return table_of(head, rows, "source stack")


def draw_sources(profile: ProfileCounts, events: Sequence[str], total: Counts) -> list[Markup]:
    """A table for each file that can be read, and what is told of the others."""
    first, made, room = events[0], list[Markup](), MOST_LINES
    sources = sources_of(profile, first)
    readable = [source for source in sources if source.texts is not None]
    for place, source in enumerate(readable):
        numbers = source.numbers()
        if len(numbers) > room:
            left = counted(len(readable) - place, "file")
            made.append(element("p", f"Left out: {left} more, with fewer counts.", class_="quiet"))
            break
        room -= len(numbers)
        share = 100 * source.own(first) / total[first] if total[first] else 0
        told = element("small", f"{shown(source.own(first))} {first}, {share:.2f} %")
        head = element("h3", element("code", plain(source.file)), told)
        made.append(element("section", head, _table(source, numbers, events)))
    return made + _unread(profile, sources, readable, first)


def _unread(
    profile: ProfileCounts, sources: Sequence[Source], readable: Sequence[Source], first: str
) -> list[Markup]:
    made = []
    closed = [source for source in sources if source.texts is None]
    if closed:
        count = shown(sum(source.own(first) for source in closed))
        told = f"{counted(len(closed), 'file')} can't be read here: {count} {first} in all."
        made.append(element("p", told, class_="quiet"))
    unknown = sum(each.own[first] for each in profile.lines if not each.file)
    if unknown:
        told = f"Code without lines of source (compile with -g): {shown(unknown)} {first}."
        made.append(element("p", told, class_="quiet"))
    return made
