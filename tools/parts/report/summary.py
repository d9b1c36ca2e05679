"""The summary: what was run, what each event counted in all, and estimates beside exact values."""

from __future__ import annotations

from dataclasses import dataclass
from typing import Sequence

from parts.command import counted
from parts.report.markup import Markup, element
from parts.report.numbers import shown
from parts.report.story import Span, Story

TONES = 8
MOST_ROWS = 2000


@dataclass(frozen=True)
class Window:
    """What a value was counted over: the occurrences of a stream, and the domain."""

    stream: str
    start: int
    end: int
    domain: int


@dataclass(frozen=True)
class Total:
    """The last value of an event in a stretch in which its set ran."""

    span: Span
    event: str
    window: Window
    value: int
    exact: int | None = None  # beside an estimate

    @property
    def is_estimate(self) -> bool:
        return bool(self.span.setup.slice)

    @property
    def best(self) -> int:
        """The exact value if it is known."""
        return self.value if self.exact is None else self.exact


def totals_of(
    story: Story, streams: dict[int, str], without_turns: Story | None = None
) -> list[Total]:
    """The last values of each span. An estimate has the exact value beside it: that of the story in
    which no set takes turns, or if there is none that which another set counted over the same
    occurrences."""
    if without_turns is not None and len(without_turns.spans) == len(story.spans):
        return [
            total for span, other in zip(story.spans, without_turns.spans)
            for total in _with_exact(span, other, streams)
        ]
    totals: list[Total] = []
    for span in story.spans:
        if (last := span.last) is None:
            continue
        window = Window(
            streams.get(span.thread, ""), span.counted_from, last.position, span.setup.domain
        )
        totals += [
            Total(span, event, window, value)
            for event, value in zip(span.setup.events, last.values)
        ]
    exact = {(total.window, total.event): total.value for total in totals if not total.is_estimate}
    return [
        Total(
            total.span, total.event, total.window, total.value,
            exact.get((total.window, total.event)),
        )
        if total.is_estimate
        else total
        for total in totals
    ]


def _with_exact(span: Span, other: Span, streams: dict[int, str]) -> list[Total]:
    if (last := span.last) is None:
        return []
    window = Window(
        streams.get(span.thread, ""), span.counted_from, last.position, span.setup.domain
    )
    exact: Sequence[int | None] = (
        other.last.values if span.setup.slice and other.last is not None
        else (None,) * len(last.values)
    )
    return [
        Total(span, event, window, value, of_event)
        for event, value, of_event in zip(span.setup.events, last.values, exact)
    ]


def draw_totals(totals: Sequence[Total]) -> list[Markup]:
    if not totals:
        return []
    compared = any(total.exact is not None for total in totals)
    heads = ["thread", "set", "event", "occurrences", "value"] + (
        ["exact", "estimate off by"] if compared else []
    )
    rows = [_row(total, compared) for total in totals[:MOST_ROWS]]
    left_out = len(totals) - MOST_ROWS
    return [table_of(heads, rows, "totals stack")] + [
        element("p", f"Left out: {counted(left_out, 'value')} more.", class_="quiet")
    ] * (left_out > 0)


def table_of(heads: Sequence[str], rows: Sequence[Markup], kind: str = "stack") -> Markup:
    """A table whose cells stand below one another on a narrow page, each with its label."""
    head = element(
        "thead",
        element(
            "tr",
            [
                element("th", text, scope="col", class_="number" if place > 2 else None)
                for place, text in enumerate(heads)
            ],
        ),
    )
    return element(
        "div", element("table", head, element("tbody", rows), class_=kind), class_="wide"
    )


def _row(total: Total, compared: bool) -> Markup:
    span = total.span
    more = _compared(total) if compared else []
    return element(
        "tr",
        element(
            "td", element("span", span.thread, class_=f"chip tone{span.thread % TONES}"),
            data_label="thread",
        ),
        element("td", span.set, data_label="set"),
        element("td", element("code", total.event), class_="main"),
        element(
            "td", f"{shown(total.window.start)} to {shown(total.window.end)}",
            class_="number quiet", data_label="occurrences",
        ),
        element(
            "td", element("b", shown(total.value)),
            element("span", "estimate", class_="badge") if total.is_estimate else None,
            class_="number", data_label="value",
        ),
        more,
        data_thread=span.thread,
        data_set=f"{span.thread}.{span.set}",
    )


def _compared(total: Total) -> list[Markup]:
    if total.exact is None:
        return [element("td", class_="number"), element("td", class_="number")]
    return [
        element("td", shown(total.exact), class_="number", data_label="exact"),
        element(
            "td", off_by(total.value, total.exact), class_="number", data_label="estimate off by"
        ),
    ]


def off_by(estimate: int, exact: int) -> str:
    """How far an estimate is from the exact value, in percent of it."""
    if exact == 0:
        return "0.0 %" if estimate == 0 else "exact is 0"
    return f"{100 * (estimate - exact) / abs(exact):+.1f} %"
