"""The page of a report: its frame, and the filter of threads and sets."""

from __future__ import annotations

from typing import Sequence

from parts.report import matrix
from parts.report.frame import POLICY, Section, Top, chip, chips, framed
from parts.report.markup import Markup, element
from parts.report.story import Story

__all__ = ["POLICY", "Section", "make_page"]
TONES = 8


def _filter(story: Story) -> Markup:
    made = [chip("all", "", data_all="")]
    for thread in sorted(story.positions):
        own = [
            chip(f"set {number}", "small", data_pick_set=f"{owner}.{number}")
            for owner, number in story.sets() if owner == thread
        ]
        made.append(
            element(
                "span", chip(f"thread {thread}", f"tone{thread % TONES}", data_pick_thread=thread),
                own, class_="of",
            )
        )
    return chips("filter by thread and set", made)


def make_page(
    title: str, files: Sequence[tuple[str, str]], tiles: Markup, story: Story,
    sections: Sequence[Section],
) -> str:
    return framed(
        Top("Kistalub report", title, files, tiles, _filter(story)), sections, "tools/report",
        matrix.STYLE,
    )
