"""Counts over time: a small chart for each event of each stretch in which a set ran."""

from __future__ import annotations

from typing import Sequence

from parts.report.markup import Markup, element
from parts.report.numbers import Scale, short, shown
from parts.report.story import Span
from parts.report.times import Time

WIDTH, HEIGHT = 300, 116
LEFT, RIGHT, TOP, BOTTOM = 44, 10, 10, 20
MOST_POINTS = 12  # that have a dot each
TONES = 8


def draw_curves(span: Span, time: Time) -> list[Markup]:
    """The charts of a span that was read at least once while it ran."""
    return (
        [_chart(span, place, event, time) for place, event in enumerate(span.setup.events)]
        if span.last is not None else []
    )


def _chart(span: Span, place: int, event: str, time: Time) -> Markup:
    points = [(time.at(reading.position), reading.values[place]) for reading in span.readings]
    last = points[-1][1]
    badge = element("span", "estimate", class_="badge") if span.setup.slice else None
    head = element(
        "figcaption", element("code", event, title=event), badge, element("strong", shown(last))
    )
    return element(
        "figure", head,
        _picture(points, place, f"{event} of set {span.set} of thread {span.thread}"),
        class_="curve",
    )


def _picture(points: Sequence[tuple[int, int]], tone: int, told: str) -> Markup:
    low, high = min(0, *(value for _, value in points)), max(1, *(value for _, value in points))
    across = Scale(points[0][0], max(points[-1][0], points[0][0] + 1), LEFT, WIDTH - RIGHT)
    up = Scale(low, high, HEIGHT - BOTTOM, TOP)
    places = [(across.at(position), up.at(value)) for position, value in points]
    line = "M" + "L".join(f"{x:.1f} {y:.1f}" for x, y in places)
    ground = f"{up.at(0):.1f}"
    parts = [element("title", told)]
    for value in {low, high}:
        y = up.at(value)
        parts.append(
            element("line", class_="grid", x1=LEFT, x2=WIDTH - RIGHT, y1=f"{y:.1f}", y2=f"{y:.1f}")
        )
        parts.append(
            element(
                "text", short(value), class_="quiet", x=LEFT - 6, y=f"{y + 4:.1f}",
                text_anchor="end",
            )
        )
    parts.append(
        element("path", class_=f"area fill{tone % TONES}", d=f"{line}V{ground}H{places[0][0]:.1f}z")
    )
    parts.append(element("path", class_=f"curve-line line{tone % TONES}", d=line))
    if len(points) <= MOST_POINTS:
        parts += [
            element(
                "circle", element("title", f"{shown(value)} at {shown(position)}"),
                class_=f"fill{tone % TONES}", cx=f"{x:.1f}", cy=f"{y:.1f}", r=3,
            )
            for (position, value), (x, y) in zip(points, places)
        ]
    ends = [(points[0][0], "start")] + [(points[-1][0], "end")] * (points[-1][0] > points[0][0])
    for position, anchor in ends:
        parts.append(
            element(
                "text", shown(position), class_="quiet", x=f"{across.at(position):.1f}",
                y=HEIGHT - 5, text_anchor=anchor,
            )
        )
    return element("svg", parts, viewBox=f"0 0 {WIDTH} {HEIGHT}", role="img")
