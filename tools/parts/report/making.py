"""A report from its files: the tools are run, their answers are read as a story, and each section
is drawn."""

from __future__ import annotations

import re
from dataclasses import dataclass, field

from formats.refusals import NAME_FAULTS, OF_NAME, RULES, why_not
from formats.scripts import calls_of
from parts.command import counted, pass_on
from parts.report.asking import Answer, Tables, Tools, check_files, read_again
from parts.report.curves import draw_curves
from parts.report.exact import exact_story
from parts.report.markup import Markup, element
from parts.report.matrix import draw
from parts.report.page import Section, make_page
from parts.report.probe import probe_of
from parts.report.profiles import Place, draw_profiles
from parts.report.ratios import draw_ratios
from parts.report.region_rows import draw_regions
from parts.report.region_tree import read_tree
from parts.report.replies import Step, read_replies
from parts.report.script_table import draw_script
from parts.report.sets import Group, Pictures, groups_of
from parts.report.story import Setup, Span, Story, tell_story
from parts.report.summary import Total, draw_totals, totals_of
from parts.report.tiles import draw_tiles
from parts.report.timeline import MOST_TURNS, Timing, draw_timelines
from parts.report.times import Time, times_of
from parts.report.turns import Clock, clock_of, turns_of
from parts.report.unit_counters import read_counters

# What is said of refused calls stands beside them.
BESIDE_ITS_CALL = re.compile(r"hint: (?:line [0-9]+: |[0-9,]+ more calls? )")
MOST_PICTURES = 60
MOST_CHARTS = 240


@dataclass(frozen=True)
class Asked:
    """What a report is made of."""

    tables: Tables
    script: str
    streams: tuple[str, ...] = ()
    place: Place = field(default_factory=Place)
    regions: str | None = None
    events: str = ""
    every: int | None = None
    title: str | None = None


class Report:
    def __init__(self, tools: Tools, asked: Asked):
        self.tools = tools
        self.asked = asked
        self.answer: Answer = tools.ask(
            "papi_run", ["--notes"], [asked.script, *asked.streams], hints=True
        )
        pass_on(self.answer.errors)
        self.said = [line for line in self.answer.said() if not BESIDE_ITS_CALL.match(line)]
        self.steps, self.notes = read_replies(calls_of(read_again(asked.script)), self.answer.lines)
        self.story = self._tell()
        self.pictures = Pictures(tools, read_counters(asked.tables.unit))
        self.groups: dict[tuple[str, ...], list[Group]] = {}
        self.clocks: dict[int, Clock] = {}
        self.times = times_of(tools, self.story.positions, self._clock, asked.streams)
        self.unit = next((time.unit for time in self.times.values()), Time().unit)

    def _tell(self) -> Story:
        probe = probe_of(self.steps, self.asked.every)
        answer = self.tools.run(probe.lines, self.asked.streams)
        steps, notes = read_replies(calls_of(probe.lines), answer.lines)
        self._lines = probe.origins
        in_turns = any(step.is_done and step.call.name == "multiplex" for step in steps)
        self.without_turns = (
            exact_story(self.tools, steps, self.asked.streams) if in_turns else None
        )
        return tell_story(
            steps, probe.origins, notes, None if probe.asks else self.tools.name_in_set
        )

    def page(self) -> str:
        asked = self.asked
        named = [
            ("unit", asked.tables.unit), ("presets", asked.tables.presets),
            ("processor", asked.tables.cpu), ("script", asked.script),
        ]
        named += [(f"stream {thread}", stream) for thread, stream in enumerate(asked.streams)]
        named += [
            ("map", asked.place.map), ("program", asked.place.program), ("regions", asked.regions),
        ]
        files = [(kind, name) for kind, name in named if name is not None]
        title = asked.title if asked.title is not None else asked.script.rpartition("/")[2]
        streams = dict(enumerate(asked.streams))
        totals = totals_of(self.story, streams, self.without_turns)
        tiles = draw_tiles(self.steps, self.story, len(self.notes), totals)
        return make_page(title, files, tiles, self.story, self.sections(streams, totals))

    def sections(self, streams: dict[int, str], totals: list[Total]) -> list[Section]:
        return [
            Section(
                "errors", "What the tools said", "",
                [element("pre", "\n".join(self.said), class_="notice")] if self.said else [],
            ),
            Section(
                "totals", "Totals", self._about_totals(),
                [*draw_totals(totals), *draw_ratios(totals)],
            ),
            Section(
                "time",
                "Threads in time",
                f"From left to right the {self.unit} of a thread. A bar is a stretch in which a "
                "set ran, a triangle a threshold "
                "that was passed, an upright line a place at which the count was zeroed, and a "
                "colour within a bar the group that had its turn.",
                draw_timelines(self.story, streams, self.timing_of, self.times)
                if self.story.spans
                else [],
            ),
            Section("curves", "Counts over time", self._read_every(), self._curves()),
            Section(
                "counters", "Events and counters",
                "A ring is a counter that a native event may have, a disc the one that it has.",
                self._setups(),
            ),
            Section(
                "conflicts",
                "Conflicts",
                "Events fit if each finds a counter of its own. They do not fit if some of them "
                "are together allowed fewer "
                "counters than they are: those are marked.",
                self._conflicts(),
            ),
            Section("profile", "Where thresholds were passed", "", self._profiles()),
            Section(
                "regions", "Regions",
                (
                    "What each region counted, by the regions that it stands in. The bar is its "
                    "share of the first event."
                ),
                self._regions(),
            ),
            Section(
                "script", "Script and replies", "Each call with what it was answered.",
                draw_script(self.steps, self.story.names, RULES),
            ),
            Section(
                "rules",
                "Rules",
                "A call is refused by the first of these that holds, in this order. ENOEVST is a "
                "set that is not there, EISRUN one that runs, "
                "ENOTRUN one that does not.",
                self._rules(),
            ),
        ]

    def timing_of(self, span: Span) -> Timing | None:
        """The groups and turns of a span, or none if its set takes none."""
        if not span.setup.slice:
            return None
        clock = self._clock(span.thread)
        groups = self._groups(span.setup)
        turns = turns_of(span, max(len(groups), 1), clock, MOST_TURNS) if groups else []
        return Timing(
            groups, turns, -(-(clock.at(span.end) - clock.at(span.start)) // span.setup.slice)
        )

    def _clock(self, thread: int) -> Clock:
        if thread not in self.clocks:
            self.clocks[thread] = clock_of(
                self.asked.streams[thread] if thread < len(self.asked.streams) else None
            )
        return self.clocks[thread]

    def _groups(self, setup: Setup) -> list[Group]:
        if setup.events not in self.groups:
            self.groups[setup.events] = groups_of(self.tools, setup.events)
        return self.groups[setup.events]

    def _read_every(self) -> str:
        how = (
            f"Each set is read every {counted(self.asked.every, 'occurrence')} of its thread."
            if self.asked.every
            else "Each set is read at some 240 places of its thread, and where the script reads it."
        )
        return (
            f"{how} A set counts from its start, or from where it was zeroed. From left to right "
            f"stand {self.unit}."
        )

    def _about_totals(self) -> str:
        told = (
            "The last value of each event, and the occurrences of the thread over which it was "
            "counted."
        )
        if self.without_turns is None:
            return told
        return (
            f"{told} The exact values beside estimates are of one more run, in which each native "
            "event has a counter and no set takes turns."
        )

    def _curves(self) -> list[Markup]:
        made: list[Markup] = []
        drawn = 0
        spans = [span for span in self.story.spans if span.last is not None]
        for place, span in enumerate(spans):
            if drawn >= MOST_CHARTS:
                return made + _left_out(len(spans) - place, "run", 0)
            if charts := draw_curves(span, self.times[span.thread]):
                drawn += len(charts)
                until = "the end" if span.is_open else f"{span.end:,}"
                head = element(
                    "h3", f"Set {span.set} of thread {span.thread}",
                    element("small", f"from occurrence {span.start:,} to {until}"),
                )
                made.append(
                    element(
                        "section", head, element("div", charts, class_="curves"),
                        data_thread=span.thread, data_set=f"{span.thread}.{span.set}",
                    )
                )
        return made

    def _setups(self) -> list[Markup]:
        """A picture for each set as it ran, and as it is now if it never did."""
        shown: list[tuple[int, int, Setup]] = []
        for span in self.story.spans:
            if all(
                (span.thread, span.set) != (thread, number) or span.setup.events != setup.events
                for thread, number, setup in shown
            ):
                shown.append((span.thread, span.set, span.setup))
        ran = {(thread, number) for thread, number, _ in shown}
        shown += [
            (*key, setup) for key, setup in sorted(self.story.setups.items())
            if key not in ran and setup.events
        ]
        made = [
            part for thread, number, setup in shown[:MOST_PICTURES]
            for part in self._setup(thread, number, setup)
        ]
        return [element("div", made, class_="pictures")] * bool(made) + _left_out(len(shown), "set")

    def _setup(self, thread: int, number: int, setup: Setup) -> list[Markup]:
        name = f"Set {number} of thread {thread}"
        if not setup.slice:
            picture = self.pictures.of_setup(setup)
            return [_figure(name, "", draw(picture), thread, number)] if picture is not None else []
        made = []
        groups = self._groups(setup)
        for place, group in enumerate(groups):
            picture = self.pictures.of_group(setup, group)
            if picture is not None:
                told = f", group {place}: turns of {counted(setup.slice, 'tick')}"
                made.append(_figure(name, told, draw(picture), thread, number))
        return made

    def _conflicts(self) -> list[Markup]:
        made = []
        for conflict in self.story.conflicts[:MOST_PICTURES]:
            picture = self.pictures.of_conflict(conflict)
            if picture is not None:
                call = conflict.step.call
                line = self._line_of(conflict.step)
                told = (
                    f": {conflict.event} does not fit into set {call.arguments[0]} of thread "
                    f"{call.thread}. {why_not(len(conflict.blamed), conflict.counters)}"
                )
                link = element("a", f"Line {line}", href=f"#line-{line}")
                made.append(
                    _figure(
                        link, told, draw(picture), call.thread, int(call.arguments[0]),
                        f"conflict-{line}",
                    )
                )
        return [element("div", made, class_="pictures")] * bool(made) + _left_out(
            len(self.story.conflicts), "conflict"
        )

    def _profiles(self) -> list[Markup]:
        return draw_profiles(
            self.tools, self.asked.place, self.asked.script, self.asked.streams, self.notes,
            self._names_of_notes(),
        )

    def _line_of(self, step: Step) -> int:
        return self._lines[step.call.line - 1] or 0

    def _names_of_notes(self) -> dict[tuple[int, int, int], str]:
        names = {}
        for span in self.story.spans:
            for passing in span.passings:
                note = passing.note
                names[(note.thread, note.set, note.index)] = span.setup.events[note.index]
        return names

    def _regions(self) -> list[Markup]:
        if self.asked.regions is None:
            return []
        return draw_regions(
            read_tree(self.tools, self.asked.regions, self.asked.events, self.asked.streams),
            self.asked.events.split(","),
        )

    def _rules(self) -> list[Markup]:
        refused = [step for step in self.steps if step.is_refused]
        calls = sorted({step.call.name for step in refused} & set(RULES))
        if not calls:
            return []
        rows = [
            [element("dt", call, id=f"rule-{call}"), element("dd", RULES[call])] for call in calls
        ]
        named = any(OF_NAME in RULES[call] for call in calls)
        faults = (
            [
                [element("dt", code), element("dd", f"{where} ({fault})")]
                for fault, where, code in NAME_FAULTS
            ]
            if named
            else []
        )
        more = [element("h3", "The name's code"), element("dl", faults)] if faults else []
        return [element("dl", rows), *more]


def _figure(
    head: Markup | str, told: str, picture: Markup, thread: int, number: int, key: str | None = None
) -> Markup:
    caption = element("figcaption", element("b", head), told)
    return element(
        "figure", caption, element("div", picture, class_="wide broad"), class_="picture",
        data_thread=thread, data_set=f"{thread}.{number}", id=key,
    )


def _left_out(number: int, word: str, most: int = MOST_PICTURES) -> list[Markup]:
    return (
        [element("p", f"Left out: {counted(number - most, word)} more.", class_="quiet")]
        if number > most else []
    )


def make_report(asked: Asked) -> str:
    files = (
        asked.tables.unit, asked.tables.presets, asked.script, *asked.streams, asked.place.map,
        asked.place.program, asked.regions,
    )
    check_files(name for name in files if name is not None)
    with Tools(asked.tables) as tools:
        return Report(tools, asked).page()
