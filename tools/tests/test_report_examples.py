"""tools/report: the pages of examples, with what stands on them for each call, file, total and
fault."""

from __future__ import annotations

import re
from html.parser import HTMLParser
from pathlib import Path
from typing import ClassVar

from formats.scripts import calls_of
from parts.report.asking import OF_BUILD
from tests.markup import faults_of
from tests.support import ROOT, InFolder, needs_program, run_tool

EXAMPLES = ROOT / "examples"
LAB = str(EXAMPLES / "lab.unit")
EMPTY = ("meta", "br")


class Page(HTMLParser):
    """The rows of the script's table, all links and sources, and the names of all elements.
    Elements have to be closed in order."""

    def __init__(self, text: str):
        super().__init__()
        self.rows: dict[int, str] = {}
        self.refused: list[int] = []
        self.links: list[str] = []
        self.ids: set[str] = set()
        self.elements: list[str] = []
        self.sections: list[str] = []
        self.text: dict[str, str] = {}  # by section
        self.files = re.findall(
            r"<b>([^<]*)</b> <code>([^<]*)</code>", text.partition("</header>")[0]
        )
        tile = r'<div class="tile[^"]*"><strong>([^<]*)</strong><span>(?:<code>)?([^<]*)'
        self.tiles = re.findall(tile, text.partition("</header>")[0])
        self._open: list[str] = []
        self._line = 0
        faults = faults_of(text)
        if faults:
            raise ValueError(f"faulty: {faults}")
        self.feed(text)
        self.close()
        if self._open:
            raise ValueError(f"not closed: {self._open}")

    def handle_starttag(self, tag: str, attributes: list[tuple[str, str | None]]) -> None:
        given = dict(attributes)
        self.elements.append(tag)
        self.links += [str(given[name]) for name in ("href", "src") if name in given]
        self.ids |= {str(given["id"])} if "id" in given else set()
        if tag == "section" and given.get("class") == "card":
            self.sections.append(str(given["id"]))
        if tag == "tr":
            self._line = int(str(given.get("data-line", 0)))
            if given.get("class") == "refused":
                self.refused.append(self._line)
        if tag not in EMPTY:
            self._open.append(tag)

    def handle_endtag(self, tag: str) -> None:
        if self._open.pop() != tag:
            raise ValueError(f"closed out of order: {tag}")
        if tag == "td" and self._line:
            self.rows[self._line] += "|"

    def handle_data(self, data: str) -> None:
        if self._line and "td" in self._open:
            data = f" {data}" if self._open[-1] == "div" else data
            self.rows[self._line] = self.rows.get(self._line, "") + data
        if self.sections and "main" in self._open:
            self.text[self.sections[-1]] = self.text.get(self.sections[-1], "") + data


@needs_program
class Pages(InFolder):
    def page(self, *words: str, folder: Path = ROOT) -> Page:
        done = run_tool("report", *words, folder=folder)
        self.assertEqual(
            (
                done.returncode,
                [
                    line for line in done.stderr.splitlines()
                    if not line.startswith(("hint: ", OF_BUILD))
                ],
            ),
            (0, []),
        )
        return Page(done.stdout)

    made: ClassVar[dict[str, Page]] = {}

    def example(self, name: str) -> Page:
        """The page of an example, which is made once for all tests."""
        if name not in self.made:
            self.made[name] = self._example(name)
        return self.made[name]

    def _example(self, name: str) -> Page:
        words = (EXAMPLES / f"{name}.words").read_text(encoding="utf-8").splitlines()
        return self.page(*(word for word in words[1:] if word != "--notes"), folder=EXAMPLES)

    def test_replies_stand_beside_their_calls(self) -> None:
        for name in ("first", "conflict", "turns", "presets"):
            page = self.example(name)
            script = calls_of(
                (EXAMPLES / f"{name}.script").read_text(encoding="utf-8").splitlines()
            )
            replies = (EXAMPLES / f"{name}.expected").read_text(encoding="utf-8").splitlines()
            for call, reply in zip(script, replies):
                line, thread, called, told, *_ = page.rows[call.line].split("|")
                self.assertEqual(
                    (line, thread, called),
                    (str(call.line), str(call.thread), " ".join((call.name, *call.arguments))),
                )
                for word in reply.split()[3:]:
                    self.assertIn(word, told.split(), f"{name}: {reply}")
            self.assertEqual(set(page.rows), {call.line for call in script})

    def test_the_files_are_named(self) -> None:
        words = (EXAMPLES / "presets.words").read_text(encoding="utf-8").split()
        given = [
            ("unit", words[words.index("-U") + 1]), ("presets", words[words.index("-P") + 1]),
            ("processor", words[words.index("-C") + 1]), ("script", "presets.script"),
        ]
        page = self.example("presets")
        self.assertEqual(
            (page.files[:4], [kind for kind, _ in page.files[4:]]),
            (given, [f"stream {number}" for number in range(len(page.files) - 4)]),
        )
        self.assertIn(("stream 0", "presets.stream"), page.files)

    def test_a_conflict(self) -> None:
        page = self.example("conflict")
        self.assertEqual(page.refused, [3])
        self.assertIn(
            "Event exists, but cannot be counted due to hardware resource limits", page.rows[3]
        )
        self.assertIn(
            "These 2 events are allowed 1 counter, P0, and no others.", page.text["conflicts"]
        )
        self.assertTrue({"rule-add", "conflict-3", "line-3"} <= page.ids)
        self.assertIn("ECNFLCT", page.text["rules"])
        self.assertEqual(page.sections, ["counters", "conflicts", "script", "rules"])

    def test_links_lead_to_what_is_there_and_nothing_is_fetched(self) -> None:
        for name in ("conflict", "overflow", "turns"):
            page = self.example(name)
            self.assertEqual(
                {link for link in page.links if link.removeprefix("#") not in page.ids}, set()
            )
            self.assertFalse({"link", "img", "iframe", "object"} & set(page.elements))

    def test_estimates_beside_exact_values(self) -> None:
        folder = "examples/page"
        page = self.page(
            "-U", f"{folder}/core.unit", "-M", f"{folder}/product.map", "--regions",
            f"{folder}/product.regions", "--events", "INSTRUCTIONS,L1D_MISS",
            f"{folder}/product.script", f"{folder}/product.stream", f"{folder}/product.stream",
        )
        self.assertEqual(
            page.sections,
            [
                "totals", "time", "curves", "counters", "conflicts", "profile", "regions", "script",
                "rules",
            ],
        )
        self.assertIn("estimate off by", page.text["totals"])
        self.assertIn("group 1: turns of 100 ticks", page.text["counters"])
        self.assertIn("by_columns", page.text["profile"])
        self.assertEqual(page.tiles[:2], [self.counted("c0"), self.counted("51")])
        self.assertEqual([name for _, name in page.tiles[5:7]], ["calls", "refused"])

    def counted(self, code: str) -> tuple[str, str]:
        """What both threads counted of the lines of this code, and its event."""
        lines = (EXAMPLES / "page/product.stream").read_text(encoding="ascii").splitlines()
        found = [line.split() for line in lines if line[:1].isdigit()]
        amounts = [int(words[4]) for words in found if words[1] == code and words[3] == "u"]
        event = {"c0": "core::INSTRUCTIONS", "51": "core::L1D_MISS:ALL"}[code]
        return f"{2 * sum(amounts):,}", event

    def test_hostile_texts_show_as_texts(self) -> None:
        hostile = "<script>alert(1)</script>"
        script = self.write(
            '"><img src=x onerror=alert(1)>.script',
            f"0 create\n0 add 0 {hostile}\n0 component 0 0\n",
        )
        page = self.page("-U", LAB, "--title", f"</title>{hostile}\x07", script)
        self.assertEqual(page.elements.count("script"), 1)
        self.assertNotIn("img", page.elements)
        self.assertIn(hostile, page.rows[2])

    def test_a_line_says_what_is_left_out(self) -> None:
        runs = "0 start 0\n0 run 1\n0 stop 0\n" * 1400
        page = self.page(
            "-U", LAB,
            self.write("script", f"0 create\n0 add 0 INST_RETIRED\n0 add 0 CYCLES\n{runs}"),
        )
        self.assertEqual((len(page.rows), max(page.rows)), (4000, 4000))
        for section, line in (
            ("script", "Left out: 203 calls more."), ("totals", "Left out: 800 values more."),
            ("curves", "Left out: 1,280 runs more."),
        ):
            self.assertTrue(page.text[section].endswith(line), section)

    def test_a_faulty_stream_is_said_on_the_page(self) -> None:
        done = run_tool(
            "report", "-U", LAB, str(EXAMPLES / "bad_line.script"),
            str(EXAMPLES / "bad_line.stream"),
        )
        page = Page(done.stdout)
        self.assertEqual(done.returncode, 0)
        self.assertIn("papi: stream 0: line 2: bad field", done.stderr)
        self.assertIn("papi: stream 0: line 2: bad field", page.text["errors"])
        self.assertIn("A System/C library call failed", page.rows[1])

    def test_an_event_that_no_line_counts_for_is_named_on_the_page(self) -> None:
        script = self.write(
            "s", "0 create\n0 add 0 CYCLES\n0 add 0 BR_MISP\n0 start 0\n0 run 9\n0 stop 0\n"
        )
        stream = self.write("t", "0 3c 00 u 7 1\n")
        said = self.page("-U", LAB, script, stream).text["errors"]
        self.assertIn("hint: lab::BR_MISP counts 0: no line of the streams has its code, c5", said)
        self.assertNotIn("lab::CYCLES", said)

    def test_refusals(self) -> None:
        for words, status, line in (
            (("-U", str(EXAMPLES / "bad_width.unit"), "s"), 2, "row 2: width out of range"),
            (("-U", LAB, "absent"), 2, "report: papi: no such file: absent"),
            (("-U", LAB, "-P", LAB, "s"), 2, "-P and -C go together"),
            (("-U", LAB, "--every", "0", "s"), 2, "--every takes a number"),
            (
                ("-U", LAB, "-o", str(self.folder), str(EXAMPLES / "first.script")), 1,
                "Is a directory",
            ),
        ):
            done = run_tool("report", *words)
            self.assertEqual((done.returncode, done.stdout), (status, ""), words)
            self.assertIn(line, done.stderr)
