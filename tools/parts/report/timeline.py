"""Each thread as a line in time: when which set ran, where its count was zeroed, where thresholds
were passed, and whose turn it was."""

from __future__ import annotations

from collections import Counter
from dataclasses import dataclass
from typing import Callable, Mapping, Sequence

from parts.command import counted
from parts.report.markup import Markup, element
from parts.report.numbers import Scale, shown, ticks
from parts.report.sets import Group
from parts.report.story import Passing, Span, Story
from parts.report.times import Time
from parts.report.turns import Turn

WIDTH = 1000
LEFT, RIGHT = 84, 48
LANE, BAR = 46, 18
AXIS = 30
TICKS = 8
TONES = 8
MOST_TURNS = 240
MOST_TOLD = 20  # stretches whose turns are told in words


@dataclass(frozen=True)
class Timing:
    """What is known of a span of a multiplexed set: its groups, and its turns if they are few
    enough to be drawn."""

    groups: list[Group]
    turns: list[Turn] | None
    count: int


@dataclass(frozen=True)
class Ruler:
    """From a number of occurrences to the place of the time at which they had come."""

    scale: Scale
    time: Time

    def at(self, position: int) -> float:
        return self.scale.at(self.time.at(position))


def draw_timelines(
    story: Story, names: dict[int, str], timing_of: Callable[[Span], Timing | None],
    times: Mapping[int, Time],
) -> list[Markup]:
    """A figure for each thread that has sets."""
    longest = max(
        (times[thread].at(position) for thread, position in story.positions.items()), default=0
    )
    scale = Scale(0, max(longest, 1), LEFT, WIDTH - RIGHT)
    threads = sorted({thread for thread, _ in story.sets()})
    return [
        _figure(
            story, thread, Ruler(scale, times[thread]), names.get(thread, "no stream"), timing_of
        )
        for thread in threads
    ]


def _figure(
    story: Story, thread: int, ruler: Ruler, name: str, timing_of: Callable[[Span], Timing | None]
) -> Markup:
    sets = [number for owner, number in story.sets() if owner == thread]
    height = LANE * len(sets) + AXIS
    spans = [span for span in story.spans if span.thread == thread]
    timings = [timing_of(span) for span in spans]
    lanes = [
        _lane(thread, number, place, list(zip(spans, timings)), ruler)
        for place, number in enumerate(sets)
    ]
    total = story.positions.get(thread, 0)
    unit = (
        "" if ruler.time.unit == "occurrences"
        else f", in {shown(ruler.time.at(total))} {ruler.time.unit}"
    )
    head = element(
        "figcaption", element("span", f"thread {thread}", class_=f"chip tone{thread % TONES}"),
        f" {name}, {counted(total, 'occurrence')} consumed{unit}",
    )
    picture = element(
        "svg", _axis(ruler.scale, LANE * len(sets)), lanes, viewBox=f"0 0 {WIDTH} {height}",
        role="img", class_="timeline",
    )
    told = [
        element(
            "p", _many_turns(span, timing), class_="quiet", data_thread=thread,
            data_set=f"{thread}.{span.set}",
        )
        for span, timing in zip(spans, timings)
        if timing is not None and timing.turns is None
    ]
    return element(
        "figure", head, element("div", picture, class_="wide broad"), told[:MOST_TOLD],
        data_thread=thread,
    )


def _many_turns(span: Span, timing: Timing) -> str:
    """What is said of turns that are too many to be drawn."""
    where = f"Set {span.set} from occurrence {shown(span.start)}"
    return (
        f"{where}: {len(timing.groups)} groups in turn, {shown(timing.count)} turns of "
        f"{counted(span.setup.slice, 'tick')}."
    )


def _axis(scale: Scale, bottom: int) -> list[Markup]:
    made = [
        element("line", class_="axis", x1=scale.start, x2=scale.end, y1=bottom + 4, y2=bottom + 4)
    ]
    for tick in ticks(scale.high, TICKS):
        x = f"{scale.at(tick):.1f}"
        made.append(element("line", class_="grid", x1=x, x2=x, y1=0, y2=bottom + 4))
        made.append(
            element("text", shown(tick), class_="quiet", x=x, y=bottom + 20, text_anchor="middle")
        )
    return made


def _lane(
    thread: int, number: int, place: int, spans: Sequence[tuple[Span, Timing | None]], ruler: Ruler
) -> Markup:
    top = LANE * place + LANE - BAR - 6
    own = [(span, timing) for span, timing in spans if span.set == number]
    parts = [element("text", f"set {number}", class_="ink", x=8, y=top + 13)]
    if not own:
        parts.append(element("text", "never started", class_="quiet", x=LEFT, y=top + 13))
    for span, timing in own:
        parts += _bar(span, top, ruler, timing)
    return element("g", parts, data_thread=thread, data_set=f"{thread}.{number}")


def _bar(span: Span, top: int, ruler: Ruler, timing: Timing | None) -> list[Markup]:
    left, right = ruler.at(span.start), ruler.at(span.end)
    end = "to the end" if span.is_open else f"to {shown(span.end)}"
    told = f"set {span.set} ran from {shown(span.start)} {end}: {', '.join(span.setup.events)}"
    made = [
        element(
            "rect", element("title", told), class_=f"bar fill{span.set % TONES}", x=f"{left:.2f}",
            y=top, width=f"{max(right - left, 2):.2f}", height=BAR, rx=3,
        )
    ]
    if timing is not None:
        made += _turns(top, ruler, timing)
    for position in span.zeroed:
        x = f"{ruler.at(position):.2f}"
        made.append(
            element(
                "line", element("title", f"zeroed at {shown(position)}"), class_="zeroed", x1=x,
                x2=x, y1=top - 3, y2=top + BAR + 3,
            )
        )
    return made + _passings(span.passings, top, ruler)


def _turns(top: int, ruler: Ruler, timing: Timing) -> list[Markup]:
    made = []
    for turn in timing.turns or []:
        left, right = ruler.at(turn.start), ruler.at(turn.end)
        told = (
            f"group {turn.group}, from {shown(turn.start)} to {shown(turn.end)}: "
            f"{', '.join(timing.groups[turn.group].natives)}"
        )
        made.append(
            element(
                "rect", element("title", told), class_=f"bar fill{turn.group % TONES}",
                x=f"{left:.2f}", y=top, width=f"{max(right - left - 0.5, 0.5):.2f}", height=BAR,
            )
        )
        if right - left > 22:
            made.append(
                element(
                    "text", turn.group, class_="on", x=f"{(left + right) / 2:.1f}", y=top + 13,
                    text_anchor="middle",
                )
            )
    return made


def _passings(passings: Sequence[Passing], top: int, ruler: Ruler) -> list[Markup]:
    """A mark for each place at which thresholds were passed."""
    found = Counter((passing.after, passing.upto) for passing in passings)
    made = []
    for (after, upto), hits in found.items():
        x = ruler.at(upto)
        at = (
            ", ".join(
                [
                    passing.note.address for passing in passings
                    if (passing.after, passing.upto) == (after, upto)
                ][:4]
            )
            if len(passings) < 500
            else ""
        )
        where = (
            f"at occurrence {shown(upto)}" if upto == after + 1
            else f"from occurrence {shown(after + 1)} to {shown(upto)}"
        )
        told = f"{counted(hits, 'threshold')} passed {where}" + (f" ({at})" if at else "")
        made.append(
            element(
                "path", element("title", told), class_="passing", d=f"M{x:.2f} {top - 1}l-4 -8h8z"
            )
        )
    return made
