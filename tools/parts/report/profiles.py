"""Where thresholds were passed: by function, by line of source if the program is at hand, or else
by address."""

from __future__ import annotations

from collections import Counter
from dataclasses import dataclass
from typing import Dict, Sequence, Tuple

from parts.chart import bars_of, share
from parts.command import counted
from parts.map_file import ranges_of
from parts.profile import FunctionHits, Profile, read_profile
from parts.report.asking import Tools
from parts.report.markup import Child, Markup, element
from parts.report.numbers import shown
from parts.report.replies import Note
from parts.report.source_lines import SourceLine, has_addr2line, places_of, source_lines
from parts.report.summary import table_of
from parts.stream_head import read_base
from parts.symbols import is_loaded_anywhere, read_functions

MOST_LINES = 40
MOST_ADDRESSES = 20


@dataclass(frozen=True)
class Place:
    """Where to look: a map, or a program whose functions make one, or neither."""

    map: str | None = None
    program: str | None = None


def _map_of(tools: Tools, place: Place, base: int) -> str | None:
    if place.map is not None or place.program is None:
        return place.map
    return tools.written(
        "map", [each.row() for each in ranges_of(read_functions(place.program), base)]
    )


def draw_profiles(
    tools: Tools, place: Place, script: str, streams: Sequence[str], notes: Sequence[Note],
    names: dict[tuple[int, int, int], str],
) -> list[Markup]:
    """A profile for each event that passed its threshold."""
    made = []
    for key in sorted({(note.thread, note.set, note.index) for note in notes}):
        thread, number, index = key
        own = [note for note in notes if (note.thread, note.set, note.index) == key]
        base = (
            read_base(streams[thread])
            if place.program is not None and is_loaded_anywhere(place.program) else 0
        )
        map_file = _map_of(tools, place, base)
        if map_file is None:
            body = _addresses(own)
        else:
            words = [
                f"-M{map_file}", "--thread", str(thread), "--set", str(number), "--index",
                str(index),
            ]
            profile = read_profile(tools.ask("papi_profil", words, [script, *streams]).lines)
            places = _places(place, base, profile)
            body = [_bars(profile, places), *_lines(place, profile, places)]
        head = element(
            "h3", element("code", names.get(key, f"event {index}")),
            element("small", f"thread {thread}, set {number}, {counted(len(own), 'overflow')}"),
        )
        made.append(
            element("section", head, body, data_thread=thread, data_set=f"{thread}.{number}")
        )
    return made


Places = Dict[int, Tuple[str, str, int]]


def _places(place: Place, base: int, profile: Profile) -> Places:
    """The lines of source of a profile's addresses, as far as the program tells them."""
    if place.program is None or not has_addr2line():
        return {}
    return places_of(
        place.program, base,
        [bucket.address for function in profile.functions for bucket in function.buckets],
    )


def _bar(part: int, whole: int, kind: str) -> Markup:
    return element(
        "div", element("div", class_=kind, style=f"width:{100 * part / max(whole, 1):.1f}%"),
        class_="track",
    )


def _row(name: Child, hits: int, total: int, last: Child, label: str, kind: str = "bar") -> Markup:
    return element(
        "tr", element("td", name, class_="main"),
        element("td", _bar(hits, total, kind), class_="main"),
        element("td", shown(hits), class_="number", data_label="overflows"),
        element("td", share(hits, total), class_="number", data_label="share"),
        element("td", last, class_="quiet", data_label=label) if last else element("td"),
    )


def _bars(profile: Profile, places: Places) -> Markup:
    """The functions, each with its hottest line of source, or its hottest address if that is not
    known."""
    functions = {function.name: function for function in profile.functions}
    rows = []
    for bar in bars_of(profile):
        note: Child = bar.note
        if bar.kind == "bar" and (found := _hottest_line(functions[bar.name], places)) is not None:
            hits, file, line = found
            note = [
                f"{share(hits, bar.hits)} at ",
                element("code", f"{file.rpartition('/')[2]}:{line}", title=f"{file}:{line}"),
            ]
        rows.append(
            _row(element("code", bar.name), bar.hits, profile.total, note, "hottest", bar.kind)
        )
    return table_of(("function", "", "overflows", "share", "hottest"), rows, "bars stack")


def _hottest_line(function: FunctionHits, places: Places) -> tuple[int, str, int] | None:
    """The line with the most hits of a function, all of whose addresses have one."""
    lines: Counter[tuple[str, int]] = Counter()
    for bucket in function.buckets:
        if bucket.address not in places:
            return None
        lines[places[bucket.address][1:]] += bucket.hits
    return next(
        (
            (hits, *line)
            for line, hits in sorted(lines.items(), key=lambda pair: (-pair[1], pair[0]))
        ),
        None,
    )


def _lines(place: Place, profile: Profile, places: Places) -> list[Markup]:
    """By line of source, if there is a program, and a line that says why not."""
    if place.program is None:
        return []
    if not has_addr2line():
        return [element("p", "Lines of source are left out: addr2line is not installed (apt-get "
                             "install binutils).", class_="quiet")]
    lines = source_lines(
        places, [bucket for function in profile.functions for bucket in function.buckets]
    )
    if not lines:
        return [element("p", "Lines of source are left out: the program has none for these "
                             "addresses (compile it with -g).", class_="quiet")]
    return [
        table_of(
            ("line of source", "", "overflows", "share", ""),
            [_line_row(line, profile.total) for line in lines[:MOST_LINES]], "bars lines stack",
        ),
        *_left_out(len(lines) - MOST_LINES, "line"),
    ]


def _line_row(line: SourceLine, total: int) -> Markup:
    place = f"{line.file.rpartition('/')[2]}:{line.line}"
    name = [
        element("code", place, title=f"{line.file}:{line.line}"), " ",
        element("small", line.function),
    ]
    return _row(name, line.hits, total, element("code", line.text) if line.text else "", "")


def _addresses(notes: Sequence[Note]) -> list[Markup]:
    found = Counter(note.address for note in notes)
    hottest = sorted(found.items(), key=lambda pair: (-pair[1], pair[0]))[:MOST_ADDRESSES]
    rows = [_row(element("code", address), hits, len(notes), "", "") for address, hits in hottest]
    return [
        table_of(("address", "", "overflows", "share", ""), rows, "bars stack"),
        *_left_out(len(found) - MOST_ADDRESSES, "address", "addresses"),
    ]


def _left_out(number: int, word: str, words: str = "") -> list[Markup]:
    told = f"{number:,} {words}" if words and number > 1 else counted(number, word)
    return [element("p", f"Left out: {told} more.", class_="quiet")] * (number > 0)
