"""The tree of regions as rows that open and close."""

from __future__ import annotations

from typing import Sequence

from parts.command import counted
from parts.report.markup import Markup, element
from parts.report.numbers import shown
from parts.report.region_tree import Region

TONES = 8


def draw_regions(roots: Sequence[Region], events: Sequence[str]) -> list[Markup]:
    """A tree for each thread. The bars are shares of the outermost regions' first event."""
    made = []
    for thread in sorted({region.thread for region in roots}):
        own = [region for region in roots if region.thread == thread]
        whole = sum(region.values[0] for region in own)
        tree = element(
            "div", _head(events), [_branch(region, whole, 0, events) for region in own],
            class_="tree wide", style=f"--columns:{len(events)}",
        )
        made.append(
            element(
                "section",
                element(
                    "h3", element("span", f"thread {thread}", class_=f"chip tone{thread % TONES}")
                ),
                tree,
                data_thread=thread,
            )
        )
    return made


def _head(events: Sequence[str]) -> Markup:
    names = [element("span", event, class_="number", title=event) for event in events]
    return element(
        "div", element("span", "region"), element("span", "share"), names, class_="leaf head"
    )


def _branch(region: Region, whole: int, depth: int, events: Sequence[str]) -> Markup:
    row = _row(region, whole, depth, events)
    if not region.inner:
        return element("div", row, class_="leaf")
    inner = [_branch(each, whole, depth + 1, events) for each in region.inner]
    own = element(
        "div",
        _cells(element("span", "outside of these"), region.own(), whole, depth + 1, "", events),
        class_="leaf own",
    )
    return element("details", element("summary", row, class_="leaf"), inner, own, open="")


def _row(region: Region, whole: int, depth: int, events: Sequence[str]) -> list[Markup]:
    return _cells(
        element("code", region.name), region.values, whole, depth,
        counted(region.instances, "instance"), events,
    )


def _cells(
    name: Markup, values: Sequence[int], whole: int, depth: int, remark: str, events: Sequence[str]
) -> list[Markup]:
    part = 100 * values[0] / whole if whole > 0 else 0
    bar = element(
        "div", element("div", class_="bar", style=f"width:{min(max(part, 0), 100):.1f}%"),
        class_="track", title=f"{part:.1f} %",
    )
    label = element(
        "span", name, " ", element("small", remark), class_="region",
        style=f"padding-left:{depth * 22}px",
    )
    return [
        label,
        bar,
        *(
            element("span", shown(value), class_="number", data_label=event)
            for value, event in zip(values, events)
        ),
    ]
