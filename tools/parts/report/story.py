"""What happened to each set, as the replies tell it: its events and their counters, when it ran,
what it counted, and where thresholds were passed."""

from __future__ import annotations

from dataclasses import dataclass, field
from typing import Callable, Sequence

from parts.report.replies import CONFLICT, Note, Step

USER = 1  # the domain of a new set


@dataclass(frozen=True)
class Reading:
    """The values of a set's events after a number of occurrences of its thread."""

    position: int
    values: tuple[int, ...]


@dataclass(frozen=True)
class Passing:
    """A threshold that was passed by one of the occurrences after the first position, up to the
    last one."""

    after: int
    upto: int
    note: Note


@dataclass
class Setup:
    """What a set is when it runs. The slice is 0 if its events take no turns."""

    events: tuple[str, ...] = ()
    counters: dict[str, str] = field(default_factory=dict)
    slice: int = 0
    domain: int = USER


@dataclass
class Span:
    """A stretch of occurrences in which a set ran."""

    thread: int
    set: int
    setup: Setup
    start: int
    end: int
    readings: list[Reading] = field(default_factory=list)
    zeroed: list[int] = field(default_factory=list)
    passings: list[Passing] = field(default_factory=list)
    is_open: bool = True

    @property
    def counted_from(self) -> int:
        """Where the count begins that the last reading gives."""
        return self.zeroed[-1] if self.zeroed else self.start

    @property
    def last(self) -> Reading | None:
        """The last reading that came from a call and is no mere zero of a beginning."""
        return self.readings[-1] if len(self.readings) > 1 else None


@dataclass(frozen=True)
class Conflict:
    """An event that does not fit into a set."""

    step: Step
    held: tuple[str, ...]
    held_counters: dict[str, str]
    blamed: tuple[str, ...]
    counters: tuple[str, ...]

    @property
    def event(self) -> str:
        return self.step.call.arguments[1]


@dataclass
class Story:
    setups: dict[tuple[int, int], Setup] = field(default_factory=dict)
    spans: list[Span] = field(default_factory=list)
    conflicts: list[Conflict] = field(default_factory=list)
    # how many occurrences each thread consumed
    positions: dict[int, int] = field(default_factory=dict)
    # by line: the events whose values a reply has
    names: dict[int, tuple[str, ...]] = field(default_factory=dict)

    def sets(self) -> list[tuple[int, int]]:
        return sorted(self.setups)


class _Telling:
    def __init__(self, notes: Sequence[Note], name_of: Callable[[str], str] | None):
        self.story = Story()
        self.name_of = name_of
        self.open: dict[tuple[int, int], Span] = {}
        self.notes: dict[int, list[Note]] = {}
        for note in notes:
            self.notes.setdefault(note.thread, []).append(note)

    def take(self, step: Step, origin: int | None) -> None:
        thread = step.call.thread
        self.story.positions.setdefault(thread, 0)
        if step.call.name == "run":
            self._run(thread, step)
        elif step.set is not None:
            key = thread, step.set
            if step.is_done:
                self._do(key, step, origin)
            elif step.code == CONFLICT:
                setup = self.story.setups[key]
                self.story.conflicts.append(
                    Conflict(step, setup.events, dict(setup.counters), *step.blame())
                )

    def _run(self, thread: int, step: Step) -> None:
        before = self.story.positions[thread]
        after = before + step.consumed
        self.story.positions[thread] = after
        passed = int(step.results[1])
        due = self.notes.get(thread, [])
        for note in due[:passed]:
            if (span := self.open.get((thread, note.set))) is not None:
                span.passings.append(Passing(before, after, note))
        del due[:passed]
        for (owner, _), span in self.open.items():
            if owner == thread:
                span.end = after

    def _do(self, key: tuple[int, int], step: Step, origin: int | None) -> None:
        name, results = step.call.name, step.results
        setup = self.story.setups.setdefault(key, Setup())
        if name == "create":
            self.story.setups[key] = Setup()
        elif name == "cleanup":
            self.story.setups[key] = Setup(domain=setup.domain)
        elif name == "events":
            setup.events = results
        elif name == "assign":
            setup.counters = {
                native: counter
                for native, _, counter in (result.rpartition("=") for result in results)
            }
        elif name in ("add", "remove"):
            self._change(setup, step)
        elif name == "multiplex":
            setup.slice, setup.counters = int(step.call.arguments[1]), {}
        elif name == "domain":
            setup.domain = int(step.call.arguments[1])
        else:
            self._count(key, step, origin, setup)

    def _change(self, setup: Setup, step: Step) -> None:
        """Follows a set of whose events nobody asks."""
        if self.name_of is None:
            return
        event = self.name_of(step.call.arguments[1])
        setup.events = (
            (*setup.events, event) if step.call.name == "add"
            else tuple(held for held in setup.events if held != event)
        )
        setup.counters = {}

    def _count(self, key: tuple[int, int], step: Step, origin: int | None, setup: Setup) -> None:
        name, position = step.call.name, self.story.positions[key[0]]
        if name == "start":
            nothing = Reading(position, (0,) * len(setup.events))
            now = Setup(setup.events, dict(setup.counters), setup.slice, setup.domain)
            self.open[key] = Span(*key, now, position, position, [nothing])
            self.story.spans.append(self.open[key])
            return
        if name in ("read", "stop", "accum") and origin is not None:
            self.story.names[origin] = setup.events
        span = self.open.get(key)
        if span is None:
            return
        if name in ("read", "stop"):
            span.readings.append(Reading(position, tuple(int(value) for value in step.results)))
        if name in ("accum", "reset"):
            span.zeroed.append(position)
            span.readings.append(Reading(position, (0,) * len(setup.events)))
        if name == "stop":
            span.is_open = False
            del self.open[key]


def tell_story(
    steps: Sequence[Step], origins: Sequence[int | None], notes: Sequence[Note],
    name_of: Callable[[str], str] | None = None
) -> Story:
    """The story of these steps. `origins` has for each the line of the script that it stands for.
    If the steps do not ask for the events of sets, `name_of` gives their names."""
    telling = _Telling(notes, name_of)
    for step, origin in zip(steps, origins):
        telling.take(step, origin)
    return telling.story
