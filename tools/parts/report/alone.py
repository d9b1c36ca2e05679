"""Why events do not fit together, as a picture by itself; or, if they do, which counter each
has."""

from __future__ import annotations

import re
from dataclasses import replace
from typing import Sequence

from formats.refusals import SENTENCES, why_not
from formats.scripts import calls_of
from parts.command import Fault, counted
from parts.report.asking import Tables, Tools
from parts.report.matrix import Picture, draw_alone
from parts.report.replies import CONFLICT, read_replies
from parts.report.sets import Pictures
from parts.report.story import tell_story
from parts.report.unit_counters import read_counters

TEXT = re.compile("[!-~]+")  # of an event in a script


def picture_of_events(tables: Tables, events: Sequence[str]) -> str:
    """An SVG picture of these events added to a new set in their order, up to the first that does
    not fit."""
    for event in events:
        if not TEXT.fullmatch(event):
            raise Fault(f"{event!r}: no event of a script: it has other characters than ! to ~")
    script = ["0 create"]
    for event in events:
        script += [f"0 add 0 {event}", "0 events 0", "0 assign 0"]
    with Tools(tables) as tools:
        steps, _ = read_replies(calls_of(script), tools.run(script).lines)
        for step in steps:
            if step.is_refused and step.code != CONFLICT:
                raise Fault(
                    f"{step.call.arguments[1]}: {step.code}: {SENTENCES.get(step.code, 'refused')}"
                )
        story = tell_story(steps, [None] * len(steps), [])
        pictures = Pictures(tools, read_counters(tables.unit))
        if not story.conflicts:
            picture = pictures.of_setup(story.setups[(0, 0)])
            return draw_alone(
                _titled(
                    picture, f"{counted(len(events), 'event')}, each with a counter of its own", ()
                )
            )
        conflict = story.conflicts[0]
        reason = why_not(len(conflict.blamed), conflict.counters)
        return draw_alone(
            _titled(
                pictures.of_conflict(conflict), f"{conflict.event} does not fit",
                tuple(re.split(r"(?<=\.) ", reason)),
            )
        )


def _titled(picture: Picture | None, title: str, lines: tuple[str, ...]) -> Picture:
    if picture is None:
        raise Fault("these events have no native events")
    return replace(picture, title=title, lines=lines)
