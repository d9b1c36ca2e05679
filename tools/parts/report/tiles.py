"""The tiles at the top of a page: what the program did, and below it what the script did."""

from __future__ import annotations

import re
from dataclasses import dataclass
from typing import Iterator, Sequence

from parts.report.markup import Markup, element
from parts.report.numbers import shown
from parts.report.ratios import CYCLES, INSTRUCTIONS, MISSES
from parts.report.replies import Step
from parts.report.story import Story
from parts.report.summary import Total

OPERATIONS = re.compile(
    r"PAPI_(?:FP|DP|SP|VEC)_\w+|PAPI_(?:LD|SR|LST)_INS"
    r"|(?:.*::)?(?:FP|X87|FP_ARITH\w*|MEMORY|MEM_INST_RETIRED)(?::.*)?"
    r"|(?:FP_INS|[FDS]P_OPS|VEC_\w+)"
)
MOST_OF_A_KIND = 6


@dataclass(frozen=True)
class Kind:
    """Events of a kind, and the ratio to the instructions of the same set."""

    names: re.Pattern[str]
    ratio: str
    scale: int


KINDS = (
    Kind(INSTRUCTIONS, "", 1),
    Kind(CYCLES, "per instruction", 1),
    Kind(MISSES, "per 1,000 instructions", 1000),
    Kind(OPERATIONS, "per instruction", 1),
)


def draw_tiles(steps: Sequence[Step], story: Story, notes: int, totals: Sequence[Total]) -> Markup:
    """Instructions, cycles, misses and operations come first, as far as a set counted them."""
    counts = [_tile(event, totals, kind) for kind in KINDS for event in _events(totals, kind)]
    first = element("div", counts, class_="tiles counts") if counts else None
    return element("div", first, _bookkeeping(steps, story, notes))


def _bookkeeping(steps: Sequence[Step], story: Story, notes: int) -> Markup:
    refused = sum(step.is_refused for step in steps)
    facts = [
        ("calls", len(steps), ""),
        ("refused", refused, "bad" if refused else ""),
        ("threads", len(story.positions), ""),
        ("event sets", len(story.setups), ""),
        ("occurrences", sum(story.positions.values()), ""),
        ("thresholds passed", notes, ""),
    ]
    tiles = [
        element("div", element("strong", shown(number)), element("span", name),
                class_=f"tile {tone}".strip())
        for name, number, tone in facts
    ]  # fmt: skip
    return element("div", tiles, class_="tiles facts")


def _events(totals: Sequence[Total], kind: Kind) -> list[str]:
    """The first few events of a kind."""
    found = dict.fromkeys(each.event for each in totals if kind.names.fullmatch(each.event))
    return list(found)[:MOST_OF_A_KIND]


def _tile(event: str, totals: Sequence[Total], kind: Kind) -> Markup:
    """The sum over all threads and stretches, each occurrence counted once."""
    counted = list(_apart([each for each in totals if each.event == event]))
    is_estimate = any(each.is_estimate and each.exact is None for each in counted)
    return element(
        "div",
        element("strong", shown(sum(each.best for each in counted))),
        element("span", element("code", event), " estimate" if is_estimate else None),
        _ratio(counted, totals, kind),
        class_="tile",
    )


def _ratio(counted: Sequence[Total], totals: Sequence[Total], kind: Kind) -> Markup | None:
    """To the instructions of the same stretches. There is none if one of them lacks these."""
    if not kind.ratio or not counted:
        return None
    instructions = (each for each in totals if INSTRUCTIONS.fullmatch(each.event))
    of_spans = {id(each.span): each.best for each in instructions}
    found = [of_spans.get(id(each.span), 0) for each in counted]
    if not all(found):
        return None
    ratio = kind.scale * sum(each.best for each in counted) / sum(found)
    return element("span", f"{ratio:,.2f} {kind.ratio}", class_="ratio")


def _apart(totals: Sequence[Total]) -> Iterator[Total]:
    """Those that share no occurrence of a thread, the earliest and longest first."""
    ends: dict[int, int] = {}  # where the last one of each thread ends
    for total in sorted(totals, key=lambda each: (each.window.start, -each.window.end)):
        thread = total.span.thread
        if total.window.start >= ends.get(thread, 0):
            ends[thread] = total.window.end
            yield total
