"""The page of tools/report: its policy, its limits, exact values beside estimates, ratios, the time
along its axes, and lines of source."""

from __future__ import annotations

import re
import subprocess
import unittest
from pathlib import Path
from typing import Sequence
from unittest import mock

from formats.scripts import calls_of
from parts.profile import Bucket, FunctionHits, Profile
from parts.report import making, profiles, timeline
from parts.report.asking import Tables, Tools
from parts.report.curves import BOTTOM, HEIGHT, LEFT, RIGHT, TOP, WIDTH, draw_curves
from parts.report.exact import COUNTERS, exact_story, unlimited_unit
from parts.report.making import Asked, make_report
from parts.report.matrix import LETTER, Picture, Row, draw_alone
from parts.report.page import POLICY, Section, make_page
from parts.report.profiles import Place, draw_profiles
from parts.report.ratios import draw_ratios
from parts.report.region_rows import draw_regions
from parts.report.region_tree import Region
from parts.report.replies import Note, read_replies
from parts.report.script_table import draw_script
from parts.report.sets import Group
from parts.report.story import Passing, Reading, Setup, Span, Story
from parts.report.summary import Total, Window, draw_totals, totals_of
from parts.report.tiles import draw_tiles
from parts.report.timeline import Timing, draw_timelines
from parts.report.times import Time, times_of
from parts.report.turns import Clock, Turn, clock_of
from parts.report.unit_counters import Counter
from tests.markup import faults_of, outside
from tests.support import ROOT, InFolder, needs_command, needs_program

EXAMPLES = ROOT / "examples"
LAB = str(EXAMPLES / "lab.unit")
UNIT = (
    "COMPONENT,core,mine\nCOUNTER,C0,32,P\nEVENT,INSTRUCTIONS,c0,C0,Instructions\n"
    "EVENT,CYCLES,c1,C0,Cycles\nEVENT,L1D_MISS,c2,C0,Misses\nUMASK,ALL,01,d,All\n"
)
WINDOW = Window("s", 0, 9, 1)


def text_of(made: Sequence[str]) -> str:
    return re.sub(r" +", " ", re.sub(r"<[^>]*>", " ", " ".join(made))).strip()


def span_of(
    *events: str, slice_: int = 0, thread: int = 0, end: int = 9, readings: Sequence[Reading] = ()
) -> Span:
    return Span(thread, 0, Setup(events, {}, slice_), 0, end, list(readings))


class Policy(InFolder):
    def test_the_page_forbids_all_that_it_does_not_have(self) -> None:
        page = make_page("T", [], making.Markup(""), Story(), [])
        found = re.search(r'<meta http-equiv="Content-Security-Policy" content="([^"]*)">', page)
        assert found is not None
        rules = dict(rule.split(" ", 1) for rule in found[1].replace("&#x27;", "'").split("; "))
        self.assertEqual(
            rules,
            {
                "default-src": "'none'",
                "style-src": "'unsafe-inline'",
                "script-src": "'unsafe-inline'",
                "img-src": "data:",
            },
        )
        self.assertIn("default-src 'none'", POLICY)


class Parts(unittest.TestCase):
    """What stands at the top, beside the lines of the threads, and in the tree of regions."""

    STORY = Story(setups={(0, 0): Setup(("X",)), (1, 2): Setup(("Y",))}, positions={0: 1234, 1: 0})

    def test_the_top_of_the_page(self) -> None:
        steps, _ = read_replies(
            calls_of(["0 create", "0 add 0 X", "1 register"]),
            ["1 0 create PAPI_OK 0", "2 0 add PAPI_ENOEVNT", "3 1 register PAPI_OK"],
        )
        sections = [
            Section("one", "First", "About it.", [making.Markup("<p>x</p>")]),
            Section("none", "Second", "", []),
        ]
        page = make_page(
            "T", [("unit", "u"), ("stream 0", "s")], draw_tiles(steps, self.STORY, 5, []),
            self.STORY, sections,
        )
        header = page.partition("<header>")[2].partition("</header>")[0]
        self.assertEqual(
            text_of([header]),
            (
                "Kistalub report T unit u stream 0 s 3 calls 1 refused 2 threads 2 event sets "
                "1,234 occurrences 5 thresholds passed"
            ),
        )
        self.assertEqual(
            (header.count('"tile bad"'), draw_tiles(steps[:1], self.STORY, 0, []).count("bad")),
            (1, 0),
        )
        self.assertEqual(
            (
                re.findall(r'<a href="#(\w+)">([^<]*)</a>', page),
                re.findall(r'<section id="(\w+)" class="card"', page),
            ),
            ([("one", "First")], ["one"]),
        )
        self.assertEqual(
            re.findall(r"<button [^>]*>([^<]*)</button>", page),
            ["all", "thread 0", "set 0", "thread 1", "set 2"],
        )
        picked = re.findall(r'<button [^>]*data-(all|pick-set|pick-thread)="([^"]*)"', page)
        self.assertEqual(
            picked,
            [
                ("all", ""), ("pick-thread", "0"), ("pick-set", "0.0"), ("pick-thread", "1"),
                ("pick-set", "1.2"),
            ],
        )
        self.assertEqual(faults_of(page), [])

    def tiles(self, *totals: Total) -> list[str]:
        """The texts of the tiles that stand before the bookkeeping."""
        made = draw_tiles([], self.STORY, 5, totals)
        first, found, _ = made.partition('<div class="tiles facts">')
        self.assertTrue(found)
        return [text_of([tile]) for tile in first.split('<div class="tile">')[1:]]

    def test_the_first_tiles_are_what_the_program_did(self) -> None:
        names = ("PAPI_FP_OPS", "PAPI_L1_DCM", "PAPI_TOT_CYC", "PAPI_TOT_INS", "PAPI_BR_INS")
        span = span_of(*names)
        values = dict(zip(names, (500, 30, 3000, 2000, 7)))
        wanted = ["2,000 PAPI_TOT_INS", "3,000 PAPI_TOT_CYC 1.50 per instruction"]
        wanted += ["30 PAPI_L1_DCM 15.00 per 1,000 instructions"]
        wanted += ["500 PAPI_FP_OPS 0.25 per instruction"]
        totals = [Total(span, name, WINDOW, values[name]) for name in names]
        self.assertEqual(self.tiles(*totals), wanted)
        self.assertEqual(self.tiles(totals[0]), ["500 PAPI_FP_OPS"])
        self.assertEqual(self.tiles(totals[4]), [])

    def test_a_tile_counts_each_occurrence_of_a_thread_once(self) -> None:
        """Three stretches, of which the second lies in the first; another thread; an estimate."""
        stretches = ((0, 0, 9, 100), (0, 4, 9, 40), (0, 9, 12, 7), (1, 0, 9, 1000))
        totals = [
            Total(span_of("a::INSTRUCTIONS", thread=thread), "a::INSTRUCTIONS",
                  Window("s", start, end, 1), value)
            for thread, start, end, value in stretches
        ]  # fmt: skip
        self.assertEqual(self.tiles(*totals), ["1,107 a::INSTRUCTIONS"])
        turns = span_of("X_MISS", slice_=2, thread=2)
        self.assertEqual(self.tiles(Total(turns, "X_MISS", WINDOW, 50)), ["50 X_MISS estimate"])
        self.assertEqual(self.tiles(Total(turns, "X_MISS", WINDOW, 50, 48)), ["48 X_MISS"])

    def test_each_thread_has_its_line(self) -> None:
        made = draw_timelines(
            self.STORY, {0: "s"}, lambda span: None,
            {0: Time("cycles", lambda position: 2 * position), 1: Time()},
        )
        captions = [
            text_of(re.findall("<figcaption>(.*?)</figcaption>", figure)) for figure in made
        ]
        self.assertEqual(
            captions,
            [
                "thread 0 s, 1,234 occurrences consumed, in 2,468 cycles",
                "thread 1 no stream, 0 occurrences consumed",
            ],
        )
        self.assertEqual(
            [re.findall(r">(set [0-9]+|never started)<", figure) for figure in made],
            [["set 0", "never started"], ["set 2", "never started"]],
        )
        self.assertEqual(
            [outside(picture) for picture in re.findall("<svg.*?</svg>", "".join(made))], [[], []]
        )

    def test_a_stretch_lies_between_its_occurrences(self) -> None:
        """Half of a thread's line is half of the axis."""
        span = Span(0, 0, Setup(("X",)), 25, 75, [], [50], is_open=False)
        made = draw_timelines(
            Story(setups={(0, 0): span.setup}, spans=[span], positions={0: 100}), {},
            lambda _: None, {0: Time()},
        )[0]
        first, last = (
            float(re.findall(rf'class="axis"[^>]* {place}="([0-9.]+)"', made)[0])
            for place in ("x1", "x2")
        )
        bar, wide = (
            float(re.findall(rf'class="bar fill0"[^>]* {place}="([0-9.]+)"', made)[0])
            for place in ("x", "width")
        )
        zeroed = float(re.findall(r'class="zeroed"[^>]* x1="([0-9.]+)"', made)[0])
        self.assertEqual(
            [round((place - first) / (last - first), 2) for place in (bar, zeroed, bar + wide)],
            [0.25, 0.5, 0.75],
        )
        self.assertIn("<title>set 0 ran from 25 to 75: X</title>", made)
        self.assertIn("<title>zeroed at 50</title>", made)
        top, high = (
            float(re.findall(rf'class="bar fill0"[^>]* {place}="([0-9.]+)"', made)[0])
            for place in ("y", "height")
        )
        self.assertTrue(
            0 <= top
            and top + high < float(re.findall(r'class="axis"[^>]* y1="([0-9.]+)"', made)[0]),
            top,
        )

    def test_one_occurrence_fills_its_line(self) -> None:
        span = Span(0, 0, Setup(("X",)), 0, 1, [])
        made = draw_timelines(
            Story(setups={(0, 0): span.setup}, spans=[span], positions={0: 1}), {}, lambda _: None,
            {0: Time()},
        )[0]
        first, last = (
            float(re.findall(rf'class="axis"[^>]* {place}="([0-9.]+)"', made)[0])
            for place in ("x1", "x2")
        )
        self.assertEqual(
            float(re.findall(r'class="bar fill0"[^>]* width="([0-9.]+)"', made)[0]), last - first
        )
        # a line for each number of the axis
        self.assertEqual(made.count('class="grid"'), made.count('text-anchor="middle"'))

    def test_where_thresholds_were_passed_is_told(self) -> None:
        span = Span(
            0,
            0,
            Setup(("X",)),
            0,
            2000,
            [],
            [],
            [
                Passing(after, upto, Note(0, 0, 0, at))
                for after, upto, at in ((3, 4, "0x4"), (999, 1200, "0x8"), (999, 1200, "0xc"))
            ],
        )
        made = draw_timelines(
            Story(setups={(0, 0): span.setup}, spans=[span], positions={0: 2000}), {},
            lambda _: None, {0: Time()},
        )[0]
        self.assertEqual(
            re.findall(r"<title>([0-9]+ thresholds? .*?)</title>", made),
            [
                "1 threshold passed at occurrence 4 (0x4)",
                "2 thresholds passed from occurrence 1,000 to 1,200 (0x8, 0xc)",
            ],
        )

    def test_the_numbers_of_an_axis_have_their_commas(self) -> None:
        span = Span(0, 0, Setup(("X",)), 0, 2000, [], [], is_open=False)
        made = draw_timelines(
            Story(setups={(0, 0): span.setup}, spans=[span], positions={0: 2000}), {},
            lambda _: None, {0: Time()},
        )[0]
        self.assertEqual(
            re.findall(r"<text[^>]*>([0-9,]+)</text>", made),
            ["0", "500", "1,000", "1,500", "2,000"],
        )

    def test_the_shares_of_regions(self) -> None:
        inner = Region("inner", 0, "b", 2, (2500, 1))
        made = draw_regions(
            [Region("outer", 0, "a", 1, (7500, 9), [inner]), Region("other", 0, "c", 3, (2500, 0))],
            ("X", "Y"),
        )
        self.assertEqual(
            text_of(made),
            (
                "thread 0 region share X Y outer 1 instance 7,500 9 inner 2 instances 2,500 1 "
                "outside of these 5,000 8 other 3 instances 2,500 0"
            ),
        )
        self.assertEqual(
            re.findall(r'title="([0-9.]+ %)"><div [^>]*style="width:([0-9.]+%)"', made[0]),
            [("75.0 %", "75.0%"), ("25.0 %", "25.0%"), ("50.0 %", "50.0%"), ("25.0 %", "25.0%")],
        )
        self.assertEqual(re.findall(r"padding-left:([0-9]+)px", made[0]), ["0", "22", "22", "0"])
        self.assertEqual(re.findall(r'data-label="(\w)"', made[0]), ["X", "Y"] * 4)
        self.assertIn('class="tree wide" style="--columns:2"', made[0])

    STEPS, _ = read_replies(
        calls_of(["0 create", "0 add 0 X", "0 start 0", "0 read 0", "0 read 0", "0 add 0 Y"]),
        [
            "1 0 create PAPI_OK 0", "2 0 add PAPI_OK", "3 0 start PAPI_OK", "4 0 read PAPI_OK 7",
            "5 0 read PAPI_OK 7 8", "6 0 add PAPI_ECNFLCT lab::Y / P0",
        ],
    )

    def test_the_table_of_the_script(self) -> None:
        """A value has its event beside it where there are as many events as values."""
        made = draw_script(self.STEPS, {4: ("X",), 5: ("X",)}, {"add": "..."})
        self.assertEqual(
            text_of(made),
            "line thread call reply 1 0 create PAPI_OK 0 2 0 add 0 X PAPI_OK 3 0 start 0 PAPI_OK 4 "
            "0 read 0 PAPI_OK 7 X 5 0 read 0 PAPI_OK 7 8 6 0 add 0 Y "
            "PAPI_ECNFLCT lab::Y / P0 Event exists, but cannot be counted due to hardware "
            "resource limits. rule \u00b7 picture",
        )
        self.assertEqual(re.findall('href="#([^"]*)"', made[0]), ["rule-add", "conflict-6"])
        self.assertEqual(re.findall(r'<tr( class="refused")? data-thread="0" data-set="0.0" '
                                    r'data-line="([1-6])" id="line-\2"', made[0]),
                         [*(("", str(line)) for line in range(1, 6)), (' class="refused"', "6")])

    def test_all_that_is_drawn_keeps_the_standards(self) -> None:
        span = span_of(
            "core::INSTRUCTIONS", "core::CYCLES", slice_=1,
            readings=[Reading(0, (0, 0)), Reading(4, (-3, 6)), Reading(9, (2000, 4000))],
        )
        story = Story(setups={(0, 0): span.setup}, spans=[span], positions={0: 9})
        totals = [
            Total(span, "core::INSTRUCTIONS", WINDOW, 2000, 1900),
            Total(span, "core::CYCLES", WINDOW, 4000, None),
        ]
        timing = Timing([Group(("X",)), Group(("Y",))], [Turn(0, 0, 4), Turn(1, 4, 9)], 2)
        drawn = [
            draw_totals(totals),
            draw_ratios(totals),
            draw_timelines(story, {}, lambda _: timing, {0: Time()}),
            draw_curves(span, Time()),
            draw_regions(
                [Region("outer", 0, "a", 1, (5, 9), [Region("inner", 0, "b", 1, (2, 1))])],
                ("X", "Y"),
            ),
            draw_script(self.STEPS, {}, {"add": "..."}),
        ]
        page = make_page(
            "T", [("unit", "u")], draw_tiles(self.STEPS, story, 0, totals), story,
            [Section(f"s{number}", "S", "", body) for number, body in enumerate(drawn)],
        )
        self.assertEqual((faults_of(page), page.count("<svg")), ([], 3))


class Limits(InFolder):
    def test_turns_are_drawn_up_to_240(self) -> None:
        drawn = [Turn(number % 2, number, number + 1) for number in range(240)]
        span = span_of("X", slice_=1, end=240)
        story = Story(setups={(0, 0): span.setup}, spans=[span], positions={0: 240})
        picture = draw_timelines(
            story, {}, lambda _: Timing([Group(("X",)), Group(("Y",))], drawn, 240), {0: Time()}
        )[0]
        self.assertEqual((timeline.MOST_TURNS, picture.count("group 0, from")), (240, 120))
        words = draw_timelines(
            story, {}, lambda _: Timing([Group(("X",)), Group(("Y",))], None, 241), {0: Time()}
        )[0]
        self.assertIn(
            "Set 0 from occurrence 0: 2 groups in turn, 241 turns of 1 tick.", text_of([words])
        )

    @needs_program
    def test_turns_that_are_too_many_are_counted_from_the_start_of_the_set(self) -> None:
        stream = self.write("stream", "0 c0 00 u 1 1\n" * 519)
        script = self.write("script", "0 create\n0 multiplex 0 2\n0 add 0 BR_INST\n"
                                      "0 add 0 BR_MISP\n0 run 10\n0 start 0\n0 run 509\n0 stop 0\n")
        page = text_of([make_report(Asked(Tables(LAB), script, (stream,)))])
        self.assertIn("Set 0 from occurrence 10: 2 groups in turn, 255 turns of 2 ticks.", page)

    def test_twelve_points_have_a_dot_each(self) -> None:
        for points, dots in ((12, 12), (13, 0)):
            span = span_of(
                "X", readings=[Reading(position, (position,)) for position in range(points)]
            )
            self.assertEqual(draw_curves(span, Time())[0].count("<circle"), dots)

    def test_the_numbers_of_a_curve_have_their_commas(self) -> None:
        span = span_of("X", end=2000, readings=[Reading(0, (0,)), Reading(2000, (1500,))])
        self.assertEqual(
            text_of(draw_curves(span, Time())),
            "X 1,500 X of set 0 of thread 0 0 1.5k 0 at 0 1,500 at 2,000 0 2,000",
        )

    def test_a_curve_goes_from_place_to_place(self) -> None:
        made = draw_curves(
            span_of("X", readings=[Reading(0, (0,)), Reading(4, (30,)), Reading(9, (60,))]), Time()
        )[0]
        start, end, top, ground = LEFT, WIDTH - RIGHT, TOP, HEIGHT - BOTTOM
        middle = start + (end - start) * 4 / 9
        line = (
            f"M{start:.1f} {ground:.1f}L{middle:.1f} {(top + ground) / 2:.1f}L{end:.1f} {top:.1f}"
        )
        self.assertEqual(
            re.findall(r' d="([^"]*)"', made), [f"{line}V{ground:.1f}H{start:.1f}z", line]
        )

    def test_a_curve_of_one_place_has_one_label(self) -> None:
        span = span_of("X", readings=[Reading(7, (0,)), Reading(7, (0,))])
        self.assertEqual(
            re.findall(r'text-anchor="(start|end)">([0-9]+)<', draw_curves(span, Time())[0])[-1:],
            [("start", "7")],
        )

    @needs_program
    def test_twenty_addresses_are_listed(self) -> None:
        with Tools(Tables(LAB)) as tools:
            for addresses, rows, more in ((20, 20, False), (21, 20, True), (23, 20, True)):
                notes = [Note(0, 0, 0, f"{number:#x}") for number in range(addresses)]
                made = "".join(draw_profiles(tools, Place(), "s", ["t"], notes, {}))
                self.assertEqual(
                    (
                        made.count("<tr>") - 1,
                        f"{addresses - 20} address" in made and "more." in made,
                    ),
                    (rows, more),
                )
                self.assertTrue(
                    made.startswith('<section data-thread="0" data-set="0.0">'), made[:60]
                )

    @needs_program
    def test_the_numbers_of_a_profile_have_their_commas(self) -> None:
        with Tools(Tables(LAB)) as tools:
            made = draw_profiles(tools, Place(), "s", ["t"], [Note(0, 0, 0, "0x1")] * 1234, {})
        self.assertIn('<td class="number" data-label="overflows">1,234</td>', "".join(made))

    def test_forty_lines_are_listed(self) -> None:
        buckets = [Bucket(number, 1) for number in range(43)]
        places = {number: ("f", "absent.c", number + 1) for number in range(43)}
        profile = Profile([FunctionHits("f", 43, buckets)], 0, 43)
        with_program = Place(None, str(EXAMPLES / "first.script"))
        made = (
            "".join(profiles._lines(with_program, profile, places)) if profiles.has_addr2line()
            else ""
        )
        if made:
            self.assertEqual(
                (made.count("absent.c:") // 2, "Left out: 3 lines more." in made), (40, True)
            )

    def test_of_lines_with_as_many_hits_the_first_is_the_hottest(self) -> None:
        function = FunctionHits("f", 2, [Bucket(1, 1), Bucket(2, 1)])
        self.assertEqual(
            profiles._hottest_line(function, {1: ("f", "a.c", 9), 2: ("f", "a.c", 5)}),
            (1, "a.c", 5),
        )

    def test_lines_of_source_want_addr2line(self) -> None:
        profile = Profile([FunctionHits("f", 1, [Bucket(0, 1)])], 0, 1)
        with mock.patch("parts.report.profiles.has_addr2line", return_value=False):
            made = profiles._lines(Place(None, "a"), profile, {})
        self.assertEqual(made, [
            '<p class="quiet">Lines of source are left out: addr2line is not installed (apt-get '
            'install binutils).</p>'
        ])

    @needs_program
    def test_sixty_pictures_of_a_kind(self) -> None:
        for sets, more in ((60, []), (62, ["Left out: 2 sets more."])):
            script = self.write(
                "script", "".join(f"0 create\n0 add {number} CYCLES\n" for number in range(sets))
            )
            page = make_report(Asked(Tables(LAB), script))
            self.assertEqual(
                (page.count('class="picture"'), re.findall(r"Left out: [^<]*", page)), (60, more)
            )

    @needs_program
    def test_the_files_of_a_page_stand_at_its_top(self) -> None:
        asked = Asked(
            Tables(LAB), self.write("script", "0 create\n"),
            regions=self.write("regions", "0 begin whole\n0 end whole\n"), events="CYCLES",
        )
        self.assertIn(
            f"<span><b>regions</b> <code>{asked.regions}</code></span>", make_report(asked)
        )

    @needs_program
    def test_the_curves_of_a_run_say_from_where_to_where(self) -> None:
        script = self.write("script", "0 create\n0 add 0 CYCLES\n0 start 0\n0 run 2\n0 stop 0\n"
                                      "0 start 0\n0 run 1\n0 read 0\n")
        page = make_report(
            Asked(Tables(LAB), script, (self.write("stream", "0 3c 00 u 1 1\n" * 3),))
        )
        self.assertEqual(
            re.findall(r"<small>(from occurrence [^<]*)</small>", page),
            ["from occurrence 0 to 2", "from occurrence 2 to the end"],
        )

    def test_a_picture_has_a_margin(self) -> None:
        picture = draw_alone(
            Picture([Counter("C0", "32", False)], [Row("mine::X", ("C0",), "C0")], title="T")
        )
        places = [float(x) for x in re.findall(r'<text[^>]* x="([0-9.]+)"', picture)]
        width = float(re.findall(r'viewBox="0 0 ([0-9]+)', picture)[0])
        self.assertGreaterEqual(min(places), 16)
        self.assertGreaterEqual(
            width - max(float(x) for x in re.findall(r'cx="([0-9.]+)"', picture)), 16 + 8
        )

    def test_long_names_of_counters_are_cut_to_their_columns(self) -> None:
        counters = [Counter(f"{letter}{'_LONG' * 12}", "48", True) for letter in "AB"]
        picture = draw_alone(Picture(counters, [Row("mine::X", (counters[0].name,))], title="T"))
        shown = re.findall(r"</title>([AB][^<]*)</text>", picture)
        self.assertEqual(
            [(name[0], name[-1], len(name) < 20) for name in shown],
            [("A", "\u2026", True), ("B", "\u2026", True)],
        )
        self.assertIn(f"<title>{counters[1].name}</title>", picture)
        self.assertEqual(picture.count(">fixed<"), 2)
        first, second = (
            float(x) for x in re.findall(r'class="m-name [^>]* x="([0-9.]+)"', picture)[:2]
        )
        self.assertEqual([name for name in shown if len(name) * LETTER > second - first], [])


class Exact(InFolder):
    def test_each_event_is_allowed_each_counter(self) -> None:
        rows = unlimited_unit(self.write("unit", "# mine\n" + UNIT))
        self.assertEqual(
            rows,
            [
                "COMPONENT,core,mine", *(f"COUNTER,{name},48,P" for name in COUNTERS),
                f"EVENT,INSTRUCTIONS,c0,{' '.join(COUNTERS)},",
                f"EVENT,CYCLES,c1,{' '.join(COUNTERS)},",
                f"EVENT,L1D_MISS,c2,{' '.join(COUNTERS)},", "UMASK,ALL,01,d,",
            ],
        )
        many = "".join(f"EVENT,{'E' * 55}{number},00,C0,\n" for number in range(1024))
        self.assertIsNone(
            unlimited_unit(
                self.write(
                    "unit",
                    "".join(
                        f"COMPONENT,c{number},p{number}\nCOUNTER,C0,32,P\n{many}"
                        for number in range(16)
                    ),
                )
            )
        )

    @needs_program
    def test_exact_values_beside_estimates(self) -> None:
        """Groups take turns of two occurrences: of four instructions and six misses the set sees
        two and two."""
        unit = self.write("unit", UNIT)
        stream = self.write(
            "stream",
            "0 c0 01 u 1 1\n0 c2 01 u 1 2\n" * 3 + "0 c0 01 u 1 1\n" + "0 c2 01 u 1 2\n" * 3,
        )
        script = (
            "0 create\n0 multiplex 0 2\n0 add 0 INSTRUCTIONS\n0 add 0 L1D_MISS\n0 events 0\n"
            "0 start 0\n0 run 10\n0 add 0 CYCLES\n0 read 0\n"
        )
        with Tools(Tables(unit)) as tools:
            steps, _ = read_replies(
                calls_of(script.splitlines()), tools.run(script.splitlines(), [stream]).lines
            )
            story = exact_story(tools, steps, [stream])
        assert story is not None
        self.assertEqual(
            [(span.setup.slice, span.last.values) for span in story.spans if span.last],
            [(0, (4, 6))],
        )
        page = make_report(Asked(Tables(unit), self.write("script", script), (stream,)))
        totals = text_of([page.partition('id="totals"')[2].partition("</section>")[0]])
        self.assertRegex(totals, r"mine::INSTRUCTIONS 0 to 10 [0-9]+ estimate 4 [+-]?[0-9.]+ % ")
        self.assertRegex(totals, r"mine::L1D_MISS:ALL 0 to 10 [0-9]+ estimate 6 [+-]?[0-9.]+ % ")

    def test_a_story_of_other_stretches_is_not_taken(self) -> None:
        span = span_of("X", slice_=2, readings=[Reading(0, (0,)), Reading(9, (5,))])
        other = span_of("X", readings=[Reading(0, (0,)), Reading(9, (7,))])
        self.assertEqual(
            [total.exact for total in totals_of(Story(spans=[span]), {}, Story(spans=[other]))], [7]
        )
        self.assertEqual(
            [
                total.exact
                for total in totals_of(Story(spans=[span]), {}, Story(spans=[other, other]))
            ],
            [None],
        )
        self.assertEqual(
            [total.exact for total in totals_of(Story(spans=[other]), {}, Story(spans=[other]))],
            [None],
        )


class Ratios(InFolder):
    def told(self, *counts: tuple[str, int, int | None], slice_: int = 0) -> str:
        span = span_of(*(event for event, _, _ in counts), slice_=slice_)
        return text_of(
            draw_ratios(
                [Total(span, event, WINDOW, value, exact) for event, value, exact in counts]
            )
        )

    def test_instructions_per_cycle_and_misses(self) -> None:
        self.assertEqual(
            self.told(
                ("core::INSTRUCTIONS", 3000, None), ("core::CYCLES", 2000, None),
                ("core::L1D_MISS:ALL", 45, None),
            ),
            (
                "Ratios thread set ratio of value 0 0 instructions per cycle 3,000 / 2,000 1.50 0 "
                "0 core::L1D_MISS:ALL per 1,000 instructions 45 / 3,000 15.00"
            ),
        )
        self.assertIn(
            "PAPI_L1_DCM per 1,000 instructions 5 / 1,000 5.00",
            self.told(("PAPI_TOT_INS", 1000, None), ("PAPI_L1_DCM", 5, None)),
        )

    def test_exact_values_go_before_estimates(self) -> None:
        self.assertIn(
            "10 / 1,000 10.00",
            self.told(("PAPI_TOT_INS", 900, 1000), ("PAPI_L1_DCM", 5, 10), slice_=5),
        )
        self.assertIn(
            "5 / 900 5.56 estimate",
            self.told(("PAPI_TOT_INS", 900, None), ("PAPI_L1_DCM", 5, None), slice_=5),
        )

    def test_none_without_instructions_or_of_nothing(self) -> None:
        self.assertEqual(self.told(("PAPI_L1_DCM", 5, None), ("PAPI_TOT_CYC", 9, None)), "")
        self.assertEqual(
            self.told(
                ("PAPI_TOT_INS", 0, None), ("PAPI_TOT_CYC", 0, None), ("PAPI_L1_DCM", 5, None)
            ),
            "",
        )


@needs_program
class Times(InFolder):
    def test_cycles_of_a_stream_that_has_them(self) -> None:
        stream = self.write(
            "stream", "0 c0 01 u 1 1\n0 c1 00 u 10 1\n0 c1 00 k 20 1\n0 c0 01 u 1 1\n"
        )
        with Tools(Tables(self.write("unit", UNIT))) as tools:
            times = times_of(tools, {0: 4}, lambda _: Clock(), [stream])
            self.assertEqual(
                (times[0].unit, [times[0].at(position) for position in range(5)]),
                ("cycles", [0, 0, 10, 30, 30]),
            )
            self.assertEqual(times_of(tools, {0: 4, 1: 0}, lambda _: Clock(), [stream])[1].at(0), 0)
            # Fewer cycles than occurrences are no time.
            fewer = self.write("fewer", "0 c0 01 u 1 1\n" * 3 + "0 c1 00 u 1 1\n")
            self.assertEqual(
                times_of(tools, {0: 4}, lambda _: Clock(), [fewer])[0].unit, "occurrences"
            )
            self.assertEqual(
                times_of(tools, {0: 4, 1: 4}, lambda _: Clock(), [stream, fewer])[0].unit,
                "occurrences",
            )

    def test_cycles_between_two_readings(self) -> None:
        """1,000 occurrences of three cycles each are read at 240 places."""
        stream = self.write("stream", "0 c1 00 u 3 1\n" * 1000)
        with Tools(Tables(self.write("unit", UNIT))) as tools:
            time = times_of(tools, {0: 1000}, lambda _: Clock(), [stream])[0]
        self.assertEqual(
            [time.at(position) for position in (0, 1, 499, 998, 1000)], [0, 3, 1497, 2994, 3000]
        )

    def test_stamps_go_before_cycles(self) -> None:
        stream = self.write("stream", "version 2\n0 c1 00 u 9 1 4\n0 c1 00 u 9 1 6\n")
        with Tools(Tables(self.write("unit", UNIT))) as tools:
            time = times_of(tools, {0: 2}, lambda _: clock_of(stream), [stream])[0]
        self.assertEqual(
            (time.unit, [time.at(position) for position in range(3)]), ("ticks", [0, 5, 7])
        )


class Source(InFolder):
    @needs_command("cc", "a C compiler")
    @needs_command("addr2line", "binutils")
    @needs_command("nm", "binutils")
    @needs_program
    def test_the_hottest_line_of_a_function(self) -> None:
        source = self.write(
            "a.c", "int twice(int x) {\n    return 2 * x;\n}\nint main(void) { return twice(0); }\n"
        )
        program = str(self.folder / "a")
        subprocess.run(["cc", "-g", "-O0", "-no-pie", "-o", program, source], check=True)
        symbols = subprocess.run(["nm", program], capture_output=True, text=True, check=True).stdout
        address = (
            next(line for line in symbols.splitlines() if line.endswith(" twice"))
            .split()[0]
            .lstrip("0")
        )
        stream = self.write("stream", f"0 c0 00 u 200 {address}\n" * 4)
        script = self.write("script", "0 create\n0 add 0 INST_RETIRED\n"
                                      "0 overflow 0 INST_RETIRED 256\n0 start 0\n0 run 4\n"
                                      "0 stop 0\n")
        page = make_report(Asked(Tables(LAB), script, (stream,), Place(None, program)))
        told = text_of([page.partition('id="profile"')[2].partition("</section>")[0]])
        self.assertIn("twice 3 100.0 % 100.0 % at a.c:1", told)
        self.assertIn("a.c:1 twice 3 100.0 % int twice(int x) {", told)
        self.assertRegex(page, r'100\.0 % at <code title="[^"]*/a\.c:1">a\.c:1</code>')
        self.assertEqual(Path(source).name, "a.c")
