"""tools/report: what the parts of a page are made from. Expected values are those of
docs/FORMATS.md."""

from __future__ import annotations

import re
import shutil
import subprocess
import unittest

from formats.refusals import NAME_FAULTS, RULES, SENTENCES, causes_of
from formats.scripts import CALLS, Call, calls_of
from parts.command import Fault
from parts.profile import Bucket
from parts.report.asking import OF_BUILD, Answer, Tables, Tools
from parts.report.markup import Markup, element
from parts.report.numbers import short, ticks
from parts.report.probe import MOST_CALLS, probe_of
from parts.report.region_tree import read_tree
from parts.report.replies import Step, read_replies
from parts.report.sets import Pictures, groups_of
from parts.report.source_lines import places_of, source_lines
from parts.report.story import Conflict, Reading, Setup, Span, Story, tell_story
from parts.report.summary import off_by, totals_of
from parts.report.turns import Clock, Turn, clock_of, turns_of
from parts.report.unit_counters import read_counters
from tests.markup import faults_of
from tests.support import ROOT, InFolder, needs_command, needs_program

EXAMPLES = ROOT / "examples"
LAB = str(EXAMPLES / "lab.unit")


def steps_of(script: str, *lines: str) -> list[Step]:
    return read_replies(calls_of(script.splitlines()), lines)[0]


class Markings(unittest.TestCase):
    def test_texts_are_escaped(self) -> None:
        made = element(
            "p", "<b>&", element("i", 3), ["x", None, Markup("<u></u>")], title='">', data_set="1",
            id=None,
        )
        self.assertEqual(
            made, '<p title="&quot;&gt;" data-set="1">&lt;b&gt;&amp;<i>3</i>x<u></u></p>'
        )
        self.assertEqual(element("p", "a\x00b\udcffc"), "<p>a\ufffdb\ufffdc</p>")
        self.assertEqual(element("br"), "<br>")

    def test_what_the_standards_forbid_is_found(self) -> None:
        style = "<style>.a { } .b { }</style>"
        picture = '<svg viewBox="0 0 10 10">{}</svg>'
        self.assertEqual(
            faults_of(
                f'{style}<p class="a b" data-all="">x &lt; y</p>'
                + picture.format('<rect x="2" width="8"/>')
            ),
            [],
        )
        for text, fault in (
            ("<>x</>", "no element begins at <>x</>"),
            ("<4 p>x</4 p>", "no element begins at <4 p>x</4 p>"),
            ("<part>x</part>", "there is no element part"),
            (f'{style}<p class="">x</p>', "p has an empty class"),
            (f'{style}<p class="a c">x</p>', "no style has the class c"),
            ('<p text-anchor="top"></p>', "text-anchor is top"),
            (
                "<table><tr><th>a</th><th>b</th></tr><tr><td>1</td></tr></table>",
                "a row has 1 cells below 2 heads",
            ),
            ("<svg></svg>", "a picture has no box"),
            (
                '<table><tr><th>a</th></tr><tr><td data-label="b">1</td></tr></table>',
                "below a stands b",
            ),
            (
                (
                    '<style>.main { } .stack { }</style><table class="totals '
                    'stack"><tr><th>a</th></tr><tr><td '
                    'class="main">1</td></tr><tr><td></td></tr><tr><td>2</td></tr></table>'
                ),
                "no label stands beside 2",
            ),
            (picture.format('<rect x="2" width="9"></rect>'), "rect has x from 2 to 11 of 10"),
            (picture.format('<line y2="-1"></line>'), "line has y2 from -1 to -1 of 10"),
        ):
            self.assertEqual(faults_of(text), [fault])


class Numbers(unittest.TestCase):
    def test_numbers(self) -> None:
        self.assertEqual(
            [
                short(number)
                for number in (
                    0, 999, 1000, 1234, 123_456, 2_500_000, 3 * 10**9, 4 * 10**12, -6,
                )
            ],
            ["0", "999", "1k", "1.2k", "123k", "2.5M", "3G", "4T", "-6"],
        )
        self.assertEqual(ticks(5, 8), [0, 1, 2, 3, 4, 5])
        self.assertEqual(ticks(1945, 8), [0, 500, 1000, 1500])
        self.assertEqual(ticks(0, 8), [0])
        self.assertEqual(
            [off_by(90, 100), off_by(0, 0), off_by(1, 0), off_by(-110, -100)],
            ["-10.0 %", "0.0 %", "exact is 0", "-10.0 %"],
        )


class Rules(unittest.TestCase):
    def test_sentences_are_those_of_the_library(self) -> None:
        codes = dict(
            re.findall(
                r"#define (PAPI_\w+)\s+\(?(-?[0-9]+)\)?",
                (ROOT / "include/fpapi.h").read_text(encoding="utf-8"),
            )
        )
        table = (
            (ROOT / "c/errors.c")
            .read_text(encoding="utf-8")
            .partition("messages[] = {")[2]
            .partition("};")[0]
        )
        messages = re.findall(r'"([^"]*)"', table)
        for code, sentence in SENTENCES.items():
            self.assertEqual(messages[-int(codes[code])], sentence, code)

    def table(self, head: str) -> list[list[str]]:
        """The rows of a table of docs/FORMATS.md, without the marks of code."""
        text = (ROOT / "docs/FORMATS.md").read_text(encoding="utf-8")
        lines = text.partition(head + "\n")[2].partition("\n\n")[0].splitlines()[1:]
        return [[cell.strip() for cell in line.strip().strip("|").split("|")] for line in lines]

    def test_rules_are_those_of_the_document(self) -> None:
        rules = {
            call: refusals.replace("`", "")
            for calls, refusals in self.table("| Call | Refusals in order |")
            for call in re.findall(r"`(\w+)`", calls)
        }
        self.assertEqual(set(rules), set(CALLS))
        self.assertEqual(RULES, rules)
        self.assertEqual(
            NAME_FAULTS,
            tuple(
                tuple(cell.replace("`", "") for cell in row)
                for row in self.table("| Fault | Where | Code |")
            ),
        )

    def test_each_code_of_a_call_has_its_causes(self) -> None:
        self.assertEqual(causes_of("start", "PAPI_EISRUN"), ["it or another set of its component"])
        self.assertEqual(
            causes_of("raw", "PAPI_EINVAL"),
            ["the component lacks the counter", "no native event of the set is on the counter"],
        )
        self.assertEqual(causes_of("component", "PAPI_ENOCMP"), ["no such component"])
        self.assertEqual(causes_of("events", "PAPI_ENOEVST"), ["the set is not there"])
        combined = (
            "a second umask, if one of those named cannot be combined; or, after all attributes, "
            "no counter of the event is allowed by each of the chosen umasks"
        )
        self.assertEqual(causes_of("overflow", "PAPI_ECOMBO"), ["multiplexed", combined])
        self.assertEqual(
            (
                causes_of("add", "PAPI_ECNFLCT"), causes_of("run", "PAPI_ESYS"),
                causes_of("threads", "PAPI_EINVAL"),
            ),
            ([], [], []),
        )


class Probes(unittest.TestCase):
    SCRIPT = "# a set\n0 create\n0 add 0 X\n0 start 0\n0 run 4000000000\n0 stop 0\n0 run 5"
    REPLIES = (
        "2 0 create PAPI_OK 0", "3 0 add PAPI_OK", "4 0 start PAPI_OK", "5 0 run PAPI_OK 25 0",
        "6 0 stop PAPI_OK 1", "7 0 run PAPI_OK 0 0",
    )

    def test_runs_are_cut_and_the_last_piece_asks_for_all_that_is_left(self) -> None:
        probe = probe_of(steps_of(self.SCRIPT, *self.REPLIES), 10)
        self.assertEqual(list(zip(probe.lines, probe.origins)), [
            ("0 create", 2), ("0 add 0 X", 3), ("0 events 0", None), ("0 assign 0", None),
            ("0 start 0", 4), ("0 run 10", 5), ("0 read 0", None),
            ("0 run 10", None), ("0 read 0", None), ("0 run 3999999980", None), ("0 read 0", None),
            ("0 stop 0", 6), ("0 run 5", 7),
        ])

    def test_too_many_readings(self) -> None:
        replies = [reply.replace("OK 25 0", f"OK {MOST_CALLS} 0") for reply in self.REPLIES]
        steps = steps_of(self.SCRIPT, *replies)
        with self.assertRaisesRegex(
            Fault,
            (
                "--every 1: the script with the readings has 200,00[0-9] calls, and at most "
                "100,000 are read"
            ),
        ):
            probe_of(steps, 1)
        self.assertLess(len(probe_of(steps, None).lines), 500)

    def test_a_script_without_room_stays_as_it_is(self) -> None:
        lines = ["0 create"] * (MOST_CALLS - 1) + ["0 add 0 X"]
        steps = [Step(call, "PAPI_OK", ("0",)) for call in calls_of(lines)]
        self.assertEqual(probe_of(steps, None).lines, lines)

    def test_replies_that_are_none(self) -> None:
        with self.assertRaisesRegex(Fault, "no reply: 1 0 run PAPI_OK 0 0"):
            read_replies([Call(1, 0, "create", ())], ["1 0 run PAPI_OK 0 0"])
        with self.assertRaisesRegex(Fault, "0 replies to 1 calls"):
            read_replies([Call(1, 0, "create", ())], [])


class Totals(unittest.TestCase):
    def span(
        self, thread: int, slice_: int = 0, domain: int = 1, end: int = 9,
        zeroed: tuple[int, ...] = (),
    ) -> Span:
        readings = [Reading(0, (0,)), Reading(end, (100 + thread,))]
        return Span(thread, 0, Setup(("X",), {}, slice_, domain), 0, end, readings, list(zeroed))

    def exact(self, *others: Span, streams: tuple[str, ...] = ("a", "a")) -> int | None:
        """The exact value beside the estimate of thread 0."""
        totals = totals_of(Story(spans=[self.span(0, slice_=5), *others]), dict(enumerate(streams)))
        self.assertEqual((totals[0].value, totals[0].is_estimate), (100, True))
        return totals[0].exact

    def test_an_exact_value_is_of_the_same_occurrences(self) -> None:
        self.assertEqual(self.exact(self.span(1)), 101)
        self.assertIsNone(self.exact())
        self.assertIsNone(self.exact(self.span(1, slice_=5)))
        self.assertIsNone(self.exact(self.span(1, domain=3)))
        self.assertIsNone(self.exact(self.span(1, end=8)))
        self.assertIsNone(self.exact(self.span(1, zeroed=(2,))))
        self.assertIsNone(self.exact(self.span(1), streams=("a", "b")))


class Answers(unittest.TestCase):
    def test_what_is_said_of_the_program_itself_is_no_answer(self) -> None:
        of_build = [f"{OF_BUILD}is not built: running the same code unproved (build it)"]
        told = (ROOT / "bin/unproved.sh").read_text(encoding="utf-8")
        self.assertIn(f"speaker='{OF_BUILD}is not built'", told)
        self.assertEqual(
            Answer(2, [], [*of_build, "papi: no such file: s"]).said(), ["papi: no such file: s"]
        )


class Turning(InFolder):
    def span(self, start: int, end: int, slice_: int, zeroed: tuple[int, ...] = ()) -> Span:
        return Span(0, 0, Setup(("X", "Y"), {}, slice_), start, end, [], list(zeroed))

    def test_turns_are_counted_from_where_the_count_begins(self) -> None:
        self.assertEqual(
            turns_of(self.span(0, 5, 2), 2, Clock(), 9),
            [Turn(0, 0, 2), Turn(1, 2, 4), Turn(0, 4, 5)],
        )
        self.assertEqual(
            turns_of(self.span(1, 6, 2, (4,)), 2, Clock(), 9),
            [Turn(0, 1, 3), Turn(1, 3, 4), Turn(0, 4, 6)],
        )
        self.assertIsNone(turns_of(self.span(0, 5, 1), 2, Clock(), 4))

    def test_the_clock_stands_one_above_the_last_stamp(self) -> None:
        stream = self.write(
            "s", "version 2\n0 c4 01 u 1 1 10\n# no line\n0 c4 01 u 1 1 11\n\n0 c4 01 u 1 1 19\n"
        )
        clock = clock_of(stream)
        self.assertEqual([clock.at(position) for position in range(4)], [0, 11, 12, 20])
        self.assertEqual(
            [clock.position(tick) for tick in (0, 10, 11, 12, 19, 20)], [0, 0, 1, 2, 2, 3]
        )
        # From the tick 11 on: 11 and 12 are group 0's, 13 and 14 group 1's, .., 19 and 20 group
        # 0's.
        self.assertEqual(turns_of(self.span(1, 3, 2), 2, clock, 9), [Turn(0, 1, 2), Turn(0, 2, 3)])
        self.assertIsNone(clock_of(str(EXAMPLES / "turns.stream")).stamps)


@needs_program
class Asking(InFolder):
    """What the tools print, read as a story."""

    def tell(self, tools: Tools, script: str, *streams: str, every: int | None = 1) -> Story:
        answer = tools.ask("papi_run", ["--notes"], [self.write("script", script), *streams])
        steps, _ = read_replies(calls_of(script.split("\n")), answer.lines)
        probe = probe_of(steps, every)
        steps, notes = read_replies(calls_of(probe.lines), tools.run(probe.lines, streams).lines)
        return tell_story(steps, probe.origins, notes)

    def test_events_and_their_counters(self) -> None:
        presets = Tables(LAB, str(EXAMPLES / "lab.presets"), "lab1")
        with Tools(presets) as tools:
            self.assertEqual(tools.natives_of("PAPI_BR_PRC"), ("lab::BR_INST:ALL", "lab::BR_MISP"))
            self.assertEqual(tools.natives_of("br_inst:taken"), ("lab::BR_INST:TAKEN",))
            self.assertEqual((tools.natives_of("NOPE"), tools.is_preset("NOPE")), ((), False))
            self.assertEqual(
                (tools.is_preset("PAPI_BR_PRC"), tools.is_preset("CYCLES")), (True, False)
            )
            self.assertEqual(tools.counters_of("lab::INST_RETIRED"), ("P0", "P1", "F0"))
            self.assertEqual(tools.counters_of("lab::INST_RETIRED:c=2"), ("P0", "P1"))
            # A counter mask needs a programmable counter, and REF stands on a fixed one alone.
            self.assertEqual(
                (tools.natives_of("REF:c=2"), tools.counters_of("lab::REF:c=2")),
                (("lab::REF:c=2",), ()),
            )
        self.assertEqual(
            [counter.name for counter in read_counters(LAB)["lab"]], ["P0", "P1", "F0"]
        )

    def test_groups(self) -> None:
        """BR_INST and BR_MISP need P0, CACHE and CYCLES fit beside one of them."""
        with Tools(Tables(LAB)) as tools:
            groups = groups_of(tools, ["BR_INST", "CACHE", "BR_MISP", "CYCLES"])
            self.assertEqual(
                [group.natives for group in groups],
                [("lab::BR_INST:ALL", "lab::CACHE"), ("lab::BR_MISP", "lab::CYCLES")],
            )
            self.assertEqual(groups[0].counters, {"lab::BR_INST:ALL": "P0", "lab::CACHE": "P1"})
            self.assertEqual(groups_of(tools, []), [])

    def test_a_set_of_a_script_that_asks_for_no_assignment(self) -> None:
        """The tools are asked then."""
        with Tools(Tables(LAB)) as tools:
            picture = Pictures(tools, read_counters(LAB)).of_setup(
                Setup(("CACHE", "BR_INST"), {}, 0)
            )
        assert picture is not None
        self.assertEqual(
            [(row.native, row.allowed, row.counter) for row in picture.rows],
            [("lab::CACHE", ("P1",), "P1"), ("lab::BR_INST:ALL", ("P0",), "P0")],
        )

    def test_a_conflict_of_a_set_that_asks_for_no_assignment(self) -> None:
        call = Call(4, 0, "add", ("0", "BR_MISP"))
        step = Step(call, "PAPI_ECNFLCT", ("lab::BR_INST:ALL", "lab::BR_MISP", "/", "P0"))
        with Tools(Tables(LAB)) as tools:
            picture = Pictures(tools, read_counters(LAB)).of_conflict(
                Conflict(step, ("BR_INST",), {}, *step.blame())
            )
        assert picture is not None
        self.assertEqual(
            [(row.native, row.counter, row.remark) for row in picture.rows],
            [("lab::BR_INST:ALL", "P0", ""), ("lab::BR_MISP", None, "to be added")],
        )

    def test_where_thresholds_are_passed(self) -> None:
        with Tools(Tables(LAB)) as tools:
            script = (EXAMPLES / "overflow.script").read_text(encoding="utf-8")
            span = self.tell(tools, script, str(EXAMPLES / "overflow.stream")).spans[0]
        # Eight occurrences of 255: 1,000 is passed by the fourth, and 2,000 by the eighth.
        self.assertEqual(
            [(passing.after, passing.upto, passing.note.address) for passing in span.passings],
            [(3, 4, "0x4"), (7, 8, "0x8")],
        )
        self.assertEqual(
            [reading.values[0] for reading in span.readings],
            [255 * number for number in (*range(9), 8)],
        )
        self.assertEqual((span.start, span.end, span.is_open), (0, 8, False))

    def test_a_set_has_the_counters_that_the_script_was_told(self) -> None:
        with Tools(Tables(LAB)) as tools:
            story = self.tell(tools, "0 create\n0 add 0 BR_INST\n0 add 0 CACHE\n0 start 0\n")
        self.assertEqual(
            story.spans[0].setup.counters, {"lab::BR_INST:ALL": "P0", "lab::CACHE": "P1"}
        )

    def test_zeroed_counts_and_open_sets(self) -> None:
        stream = self.write("stream", "0 c0 00 u 2 1\n" * 6)
        with Tools(Tables(LAB)) as tools:
            story = self.tell(tools, "0 create\n0 add 0 INST_RETIRED\n0 run 1\n0 start 0\n0 run 2\n"
                                     "0 reset 0\n0 run 1\n0 accum 0\n0 run 1\n", stream)
        span = story.spans[0]
        self.assertEqual(
            (span.start, span.end, span.is_open, span.zeroed, span.counted_from),
            (1, 5, True, [3, 4], 4),
        )
        self.assertEqual(
            [(reading.position, *reading.values) for reading in span.readings],
            [(1, 0), (2, 2), (3, 4), (3, 0), (4, 2), (4, 0), (5, 2)],
        )

    def test_regions_by_the_way_to_them(self) -> None:
        stream = self.write(
            "stream", "0 c0 00 u 1 1\n0 c0 00 u 2 1\n0 c0 00 u 4 1\n0 c0 00 u 8 1\n"
        )
        regions = self.write("regions", "\n".join((
            "0 begin a", "0 begin x", "0 run 1", "0 read x", "0 end x", "0 run 1", "0 end a",
            "0 begin b", "0 begin x", "0 run 1", "0 end x", "0 end b", "1 begin a", "1 end a",
        )))
        with Tools(Tables(LAB)) as tools:
            roots = read_tree(tools, regions, "INST_RETIRED", [stream])
        self.assertEqual(
            [(root.thread, root.name, root.values, root.own()) for root in roots],
            [(0, "a", (3,), (2,)), (0, "b", (4,), (0,)), (1, "a", (0,), (0,))],
        )
        self.assertEqual(
            [(inner.name, inner.values) for root in roots for inner in root.inner],
            [("x", (1,)), ("x", (4,))],
        )


class Source(InFolder):
    @needs_command("cc", "a C compiler")
    @needs_command("addr2line", "binutils")
    @needs_command("nm", "binutils")
    def test_lines_of_source(self) -> None:
        source = self.write(
            "a.c", "int twice(int x) {\n    return 2 * x;\n}\nint main(void) { return twice(0); }\n"
        )
        program = str(self.folder / "a")
        subprocess.run(
            [str(shutil.which("cc")), "-g", "-O0", "-no-pie", "-o", program, source], check=True
        )
        symbols = subprocess.run(["nm", program], capture_output=True, text=True, check=True).stdout
        address = int(
            next(line for line in symbols.splitlines() if line.endswith(" twice")).split()[0], 16
        )
        buckets = [Bucket(0x1000 + address, 3), Bucket(0x1000 + 1, 9), Bucket(0x1000 + address, 4)]
        lines = source_lines(
            places_of(program, 0x1000, [bucket.address for bucket in buckets]), buckets
        )
        self.assertEqual(
            [(line.function, line.line, line.hits, line.text) for line in lines],
            [("twice", 1, 7, "int twice(int x) {")],
        )
