"""A profile as one HTML page that fetches nothing."""

from __future__ import annotations

import shlex
from typing import Sequence

from formats.texts import plain
from parts.command import counted
from parts.profile_counts import ProfileCounts, ProfiledFunction, ProfiledInlined
from parts.profile_page.annotated import draw_sources, heads, pair, table_of
from parts.profile_page.flame import draw_flame
from parts.report.frame import Section, Top, chip, chips, framed
from parts.report.markup import Markup, element
from parts.report.numbers import shown
from parts.whole_counts import Counts, WholeCounts

MOST_OF_EACH = 100  # functions of each event
MOST_INLINED = 100
ABOUT_FLAMES = (
    "Each function below those that call it, as wide as what it did there with all that it called. "
    "What a function did that several ones call is shared out among them by the counts of their "
    "calls. A click on a function widens it, and one on the first shows all again."
)
ABOUT_FUNCTIONS = "What each did by itself, and with all that it called."
ABOUT_INLINED = "What each did where it is inlined. The function that has it has these counts too."
ABOUT_SOURCE = (
    "What each line did by itself, and with the calls that it made. What a function did in calls "
    "of itself counts in its outermost call."
)


def _tiles(total: Counts) -> Markup:
    tiles = [
        element("div", element("strong", shown(count)), element("span", event), class_="tile")
        for event, count in total.items()
    ]
    return element("div", tiles, class_="tiles")


def _listed(profile: ProfileCounts, events: Sequence[str]) -> list[ProfiledFunction]:
    """Those that do most by any of the events, in the profile's order."""
    kept = set()
    for event in events:
        ordered = sorted(profile.functions, key=lambda each: -each.own[event])
        kept |= {each.key for each in ordered[:MOST_OF_EACH]}
    return [each for each in profile.functions if each.key in kept]


def _function_row(each: ProfiledFunction, events: Sequence[str], total: Counts) -> Markup:
    cells = []
    for number, event in enumerate(events):
        share = 100 * each.own[event] / total[event] if total[event] else 0
        bar = element("div", class_="bar", style=f"width:{min(max(share, 0), 100):.2f}%")
        track = element("div", bar, class_="track", title=f"{share:.2f} %")
        cells += pair(each.own[event], each.inclusive[event], event, number)
        cells.append(element("td", track, data_event=number, data_label="share"))
    name = element("code", plain(each.name), title=plain(each.place()))
    place = element("small", plain(each.place().rpartition("/")[2]))
    calls = element("td", shown(each.calls), class_="number", data_label="calls")
    return element("tr", element("td", name, " ", place, class_="main"), calls, cells)


def _functions(profile: ProfileCounts, counts: WholeCounts) -> list[Markup]:
    listed = _listed(profile, counts.events)
    of_events = [heads(event, number, "share") for number, event in enumerate(counts.events)]
    head = [element("th", "function", scope="col"), element("th", "calls", scope="col")]
    rows = [_function_row(each, counts.events, counts.total) for each in listed]
    table = table_of([head, of_events], rows, "functions stack")
    return [table, *_left_out(len(profile.functions) - len(listed))]


def _left_out(number: int) -> list[Markup]:
    told = f"Left out: {counted(number, 'function')} more."
    return [element("p", told, class_="quiet")] * (number > 0)


def _inlined_row(each: ProfiledInlined, events: Sequence[str]) -> Markup:
    cells = [
        element(
            "td", shown(each.own[event]), class_="number", data_event=number, data_label=event
        )
        for number, event in enumerate(events)
    ]
    function = element("td", element("code", plain(each.function.name)), data_label="in")
    names = [element("td", element("code", plain(each.name)), class_="main"), function]
    return element("tr", names, cells)


def _inlined(profile: ProfileCounts, events: Sequence[str]) -> list[Markup]:
    if not profile.inlined:
        return []
    head = [element("th", text, scope="col") for text in ("inlined function", "in")]
    head += [
        element("th", event, scope="col", class_="number", data_event=number)
        for number, event in enumerate(events)
    ]
    rows = [_inlined_row(each, events) for each in profile.inlined[:MOST_INLINED]]
    return [table_of(head, rows, "inner stack"), *_left_out(len(profile.inlined) - len(rows))]


def _sections(counts: WholeCounts, profile: ProfileCounts) -> list[Section]:
    events = counts.events
    flames = [
        draw_flame(profile, event, counts.total[event], number)
        for number, event in enumerate(events)
    ]
    functions = _functions(profile, counts)
    inlined = _inlined(profile, events)
    sources = draw_sources(profile, events, counts.total)
    return [
        Section("flame", "Flame graph", ABOUT_FLAMES, flames),
        Section("functions", "Functions", ABOUT_FUNCTIONS, functions),
        Section("inlined", "Inlined functions", ABOUT_INLINED, inlined),
        Section("source", "Source", ABOUT_SOURCE, sources),
    ]


def profile_page(counts: WholeCounts, profile: ProfileCounts) -> str:
    """The whole page as a text."""
    command = plain(shlex.join(counts.command))
    files = [("command", command), *(("function", plain(name)) for name in counts.functions)]
    picks = [chip(event, "", data_pick_event=number) for number, event in enumerate(counts.events)]
    title = plain(counts.command[0].rpartition("/")[2])
    bar = chips("pick an event", picks)
    top = Top("Kistalub profile", title, files, _tiles(counts.total), bar)
    return framed(top, _sections(counts, profile), "tools/count --page")
