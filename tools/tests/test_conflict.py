"""tools/conflict: the picture of events that do not fit, and of some that do."""

from __future__ import annotations

import unittest
from xml.etree import ElementTree

from formats.refusals import why_not
from parts.report.matrix import MARGIN, Picture, Row, draw_alone
from parts.report.unit_counters import Counter
from tests.support import ROOT, needs_program, run_tool

LAB = str(ROOT / "examples/lab.unit")
PRESETS = ("-P", str(ROOT / "examples/lab.presets"), "-C", "lab1")
SPACE = "{http://www.w3.org/2000/svg}"


def texts(picture: str, kind: str) -> list[str]:
    """The texts of elements that have a class, in the order in which they stand."""
    root = ElementTree.fromstring(picture)
    return [
        "".join(element.itertext()) for element in root.iter(SPACE + "text")
        if kind in (element.get("class") or "").split()
    ]


def places(picture: str, kind: str) -> list[str]:
    """What the circles of a class say."""
    root = ElementTree.fromstring(picture)
    return [
        "".join(element.itertext()) for element in root.iter(SPACE + "circle")
        if element.get("class") == kind
    ]


class Reasons(unittest.TestCase):
    def test_reasons(self) -> None:
        self.assertEqual(
            why_not(2, ("P0",)),
            "These 2 events are allowed 1 counter, P0, and no others. So one of them has no place.",
        )
        self.assertEqual(
            why_not(5, ("A", "B", "C")),
            (
                "These 5 events are allowed 3 counters, A, B and C, and no others. So 2 of them "
                "have no place."
            ),
        )
        self.assertEqual(why_not(1, ()), "This event is allowed no counter.")


class Drawing(unittest.TestCase):
    def test_hostile_names_and_marked_ones_first(self) -> None:
        counters = [Counter(name, "16", False) for name in ("A", "B")]
        rows = [
            Row("<a>&", ("A", "B"), "A"), Row("b", ("B",), "B", "", True),
            Row("c", ("B",), None, "to be added", True),
        ]
        picture = draw_alone(Picture(counters, rows, ("B",), title="<t>", lines=("one", "two")))
        # each name stands in its title too
        self.assertEqual(texts(picture, "m-name"), ["B", "A", "bb", "cc", "<a>&<a>&"])
        self.assertEqual(
            (places(picture, "m-won"), places(picture, "m-fight"), places(picture, "m-held")),
            (["b has B"], ["c may have B"], ["<a>& has A"]),
        )
        self.assertEqual(texts(picture, "m-bold"), ["<t>", "B", "2 events", "1 counter"])

    def test_a_title_and_a_line_have_a_margin_on_both_sides(self) -> None:
        for title, lines, wide in (("t" * 100, ("one",), 860), ("t", ("one", "l" * 200), 1340)):
            root = ElementTree.fromstring(
                draw_alone(
                    Picture(
                        [Counter("A", "16", False)], [Row("a", ("A",), "A")], title=title,
                        lines=lines,
                    )
                )
            )
            self.assertEqual(root.get("width"), str(2 * MARGIN + wide))

    def test_there_is_room_below_for_what_is_told_of_counters(self) -> None:
        def height(*marked: str, is_blamed: bool = True) -> int:
            rows = [Row("a", ("A",), None, "", is_blamed)]
            return int(
                ElementTree.fromstring(
                    draw_alone(Picture([Counter("A", "16", False)], rows, marked, title="t"))
                ).get("height", "")
            )

        self.assertEqual((height("A") - height(), height(is_blamed=False) - height()), (38, 0))


@needs_program
class Conflicts(unittest.TestCase):
    def draw(self, *words: str) -> str:
        done = run_tool("conflict", "-U", LAB, *words)
        self.assertEqual(done.returncode, 0, done.stderr)
        return done.stdout

    def test_events_that_do_not_fit(self) -> None:
        picture = self.draw("CYCLES", "BR_INST", "BR_MISP", "CACHE")
        self.assertEqual(
            texts(picture, "m-bold"), ["BR_MISP does not fit", "P0", "2 events", "1 counter"]
        )
        self.assertEqual(
            places(picture, "m-won") + places(picture, "m-fight"),
            ["lab::BR_INST:ALL has P0", "lab::BR_MISP may have P0"],
        )
        self.assertEqual(places(picture, "m-held"), ["lab::CYCLES has P1"])

    def test_presets_that_do_not_fit(self) -> None:
        picture = self.draw(*PRESETS, "PAPI_BR_INS", "PAPI_BR_PRC")
        self.assertEqual(
            texts(picture, "m-bold"), ["PAPI_BR_PRC does not fit", "P0", "2 events", "1 counter"]
        )
        self.assertIn("to be added; for PAPI_BR_PRC", texts(picture, "m-quiet"))

    def test_an_event_without_a_counter(self) -> None:
        picture = self.draw("CYCLES", "REF:c=2")
        self.assertEqual(texts(picture, "m-bold"), ["REF:c=2 does not fit", "1 event"])
        self.assertIn("This event is allowed no counter.", texts(picture, "m-quiet"))

    def test_events_that_fit(self) -> None:
        picture = self.draw("INST_RETIRED", "CYCLES", "BR_INST")
        self.assertEqual(texts(picture, "m-bold"), ["3 events, each with a counter of its own"])
        self.assertEqual(
            places(picture, "m-held"),
            ["lab::INST_RETIRED has F0", "lab::CYCLES has P1", "lab::BR_INST:ALL has P0"],
        )

    def test_the_picture_of_the_readme(self) -> None:
        done = run_tool(
            "conflict", "-U", "examples/page/core.unit", "INSTRUCTIONS", "MEMORY:LOADS", "L1D_MISS",
            "MEMORY:STORES", folder=ROOT,
        )
        self.assertEqual(done.stdout, (ROOT / "docs/conflict.svg").read_text(encoding="utf-8"))

    def test_refusals(self) -> None:
        for words, status, line in (
            (("NOPE",), 1, "conflict: NOPE: PAPI_ENOEVNT: Event does not exist\n"),
            (("CYCLES", "CYCLES"), 1, "conflict: CYCLES: PAPI_EINVAL: Invalid argument\n"),
            (
                ("a b",), 1,
                "conflict: 'a b': no event of a script: it has other characters than ! to ~\n",
            ),
        ):
            done = run_tool("conflict", "-U", LAB, *words)
            self.assertEqual((done.returncode, done.stdout, done.stderr), (status, "", line))
        self.assertEqual(run_tool("conflict", "CYCLES").returncode, 2)
        self.assertEqual(
            run_tool("conflict", "-U", "absent", "CYCLES").stderr,
            "conflict: papi: no such file: absent\n",
        )
