"""tools/count --page: the numbers of the page are those of the JSON, and it stands alone."""

from __future__ import annotations

import json
from dataclasses import dataclass, field
from html.parser import HTMLParser
from pathlib import Path
from typing import Any, Iterator

from parts.profile_counts import ProfileCounts, ProfiledCalls, ProfiledFunction
from parts.profile_page.flame import LEAST, Frame, flame_of
from parts.report.frame import POLICY
from tests.markup import faults_of
from tests.support import needs_command
from tests.whole import EXIT, LOOP, WAYS, Whole, functions, needs_papi

EMPTY = ("meta", "br")
EVENTS = ("PAPI_TOT_INS", "PAPI_SR_INS")


@dataclass
class Node:
    name: str
    given: dict[str, str]
    inner: list[Node] = field(default_factory=list)
    text: str = ""

    def nodes(self) -> Iterator[Node]:
        for each in self.inner:
            yield each
            yield from each.nodes()

    def find(self, name: str, **given: str) -> list[Node]:
        wanted = {key.rstrip("_").replace("_", "-"): value for key, value in given.items()}
        return [
            each
            for each in self.nodes()
            if each.name == name and wanted.items() <= each.given.items()
        ]

    def whole_text(self) -> str:
        return self.text + "".join(each.whole_text() for each in self.inner)


class Reader(HTMLParser):
    def __init__(self) -> None:
        super().__init__()
        self.root = Node("", {})
        self.open = [self.root]

    def handle_starttag(self, tag: str, attrs: list[tuple[str, str | None]]) -> None:
        node = Node(tag, {key: value or "" for key, value in attrs})
        self.open[-1].inner.append(node)
        if tag not in EMPTY:
            self.open.append(node)

    def handle_endtag(self, tag: str) -> None:
        assert self.open.pop().name == tag

    def handle_data(self, data: str) -> None:
        self.open[-1].text += data


def read(text: str) -> Node:
    reader = Reader()
    reader.feed(text)
    return reader.root


def number(text: str) -> int:
    return int(text.replace(",", "") or 0)


def cells(row: Node, place: int) -> list[int]:
    """The numbers of an event."""
    found = row.find("td", data_event=str(place), class_="number")
    return [number(cell.whole_text()) for cell in found]


@needs_command("valgrind", "valgrind")
@needs_command("cc", "a C compiler")
@needs_papi
class Pages(Whole):
    TEXT = """
        static volatile int sink[100];
        static inline __attribute__((always_inline)) void put(int at) { sink[at] = at; }
        __attribute__((noinline)) void fill(int n) {
            for (int i = 0; i < n; i++)
                put(i);
        }
        __attribute__((noinline)) void twice(void) {
            fill(100);
            fill(50);
        }
        int main(void) { const char *text = "<b>&amp;"; twice(); fill(7); return *text == 0; }
    """

    def page(self, program: str, *words: str) -> tuple[Node, Any, str]:
        to = self.folder / "page.html"
        given = ("--page", str(to), "--events", ",".join(EVENTS), *words)
        found = self.counted(*given, program)
        text = to.read_text(encoding="utf-8")
        return read(text), found, text

    def example(self) -> tuple[Node, Any, str]:
        return self.page(self.compile("<i>&page", self.TEXT, "-g"))

    def test_it_stands_alone(self) -> None:
        page, _, text = self.example()
        self.assertEqual(faults_of(text), [])
        policy = page.find("meta", http_equiv="Content-Security-Policy")[0].given["content"]
        self.assertEqual(policy, POLICY)
        fetched = [key for each in page.nodes() for key in each.given if key in ("src", "srcset")]
        self.assertEqual(fetched, [])
        links = [each.given["href"] for each in page.find("a")]
        self.assertEqual(links, ["#flame", "#functions", "#inlined", "#source"])
        self.assertEqual(page.find("link"), [])
        self.assertNotRegex(text, r"@import|url\(|https?://")
        self.assertEqual(page.find("i"), [])
        self.assertTrue(page.find("h1")[0].whole_text().endswith("<i>&page"))

    def test_functions(self) -> None:
        page, found, _ = self.example()
        table = page.find("table", class_="functions stack")[0]
        rows = table.find("tbody")[0].inner
        told = []
        for row in rows:
            name = row.find("code")[0].whole_text()
            calls = number(row.inner[1].whole_text())
            told.append((name, calls, [cells(row, place) for place in range(len(EVENTS))]))
        wanted = [
            (
                each["name"],
                each["calls"],
                [[each["own"][event], each["inclusive"][event]] for event in EVENTS],
            )
            for each in found["functions"]
        ]
        self.assertEqual(told, wanted)
        for place, event in enumerate(EVENTS):
            own = sum(cells(row, place)[0] for row in rows)
            self.assertEqual(own, found["total"][event])
        tiles = page.find("div", class_="tile")
        totals = {each.find("span")[0].text: each.find("strong")[0].text for each in tiles}
        self.assertEqual(
            {event: number(text) for event, text in totals.items()}, found["total"]
        )

    def lines_of(self, page: Node, file: str) -> dict[int, tuple[str, list[list[int]]]]:
        section = next(
            each
            for each in page.find("section")
            if "id" not in each.given and each.find("code")[0].whole_text() == file
        )
        lines = {}
        for row in section.find("tbody")[0].inner:
            if row.given.get("class") != "gap":
                counts = [cells(row, place) for place in range(len(EVENTS))]
                lines[number(row.inner[0].whole_text())] = (row.inner[-1].whole_text(), counts)
        return lines

    def test_source(self) -> None:
        page, found, _ = self.example()
        source = next(each["file"] for each in found["lines"] if each["file"].endswith("page.c"))
        text = Path(source).read_text(encoding="utf-8").split("\n")
        wanted: dict[int, list[list[int]]] = {}
        for key, rows in (("own", found["lines"]), ("inclusive", found["calls"])):
            for each in rows:
                if each["file"] == source:
                    counts = wanted.setdefault(each["line"], [[0, 0] for _ in EVENTS])
                    for place, event in enumerate(EVENTS):
                        counts[place][1] += each[key][event]
                        counts[place][0] += each[key][event] * (key == "own")
        lines = self.lines_of(page, source)
        for line, (of, counts) in lines.items():
            self.assertEqual(of, text[line - 1])
            self.assertEqual(counts, wanted.pop(line, [[0, 0], [0, 0]]))
        self.assertEqual(wanted, {})
        filling = next(line for line, of in enumerate(text, 1) if "fill(100)" in of)
        putting = next(line for line, of in enumerate(text, 1) if "void put" in of)
        self.assertEqual(lines[putting][1][1], [157, 157])
        self.assertEqual(lines[filling][1][1], [1, 102 - 1])  # the return address, and 100 stores

    def test_source_that_is_not_there(self) -> None:
        program = self.compile("gone", self.TEXT, "-g")
        (self.folder / "gone.c").unlink()
        page, found, _ = self.page(program)
        told = [each.whole_text() for each in page.find("p", class_="quiet")]
        files = {each["file"] for each in found["lines"] + found["calls"] if each["file"]}
        if not any(Path(file).exists() for file in files):
            count = sum(each["own"]["PAPI_TOT_INS"] for each in found["lines"])
            said = f"{len(files)} files can't be read here: {count:,} PAPI_TOT_INS in all."
            self.assertIn(said if len(files) > 1 else said.replace("files", "file", 1), told)
        self.assertFalse(any("gone.c" in each.whole_text() for each in page.find("h3")))

    def flame(self, page: Node, place: int) -> Node:
        return page.find("div", class_="flame", data_event=str(place))[0].inner[0]

    def test_the_flame_graph(self) -> None:
        """Who calls what, by hand; and no box holds more than it is wide."""
        program = self.assemble("program", self.ASSEMBLED)
        page, found, _ = self.page(program)
        flame = self.flame(page, 0)
        self.assertEqual(number(flame.inner[0].given["data-count"]), found["total"]["PAPI_TOT_INS"])
        wanted = {
            "_start": {"plain": 24, "again": 86, "tail": 26},
            "again": {"plain": 72},
            "tail": {"plain": 24},
        }
        self.assertEqual(self.tree(flame), wanted)
        for part in [flame, *flame.find("div", class_="part")]:
            count = number(part.inner[0].given["data-count"])
            counts = [self.count_of(each) for each in self.inside(part)]
            self.assertLessEqual(sum(counts), count)
            for each, of in zip(self.inside(part), counts):
                width = float(each.given["style"][len("width:") : -1])
                self.assertAlmostEqual(width, 100 * of / count, 3)

    def inside(self, part: Node) -> list[Node]:
        return [each for below in part.inner[1:] for each in below.inner]

    def count_of(self, part: Node) -> int:
        return number(part.inner[0].given["data-count"])

    ASSEMBLED = (
        "call plain\n call tail\n mov $3, %ebx\n call again\n"
        + EXIT.format(0)
        + f"plain: {LOOP.format(10)} push %rax\n pop %rax\n ret\n"
        + WAYS.format(first="call plain\n")
        + functions("_start", "plain", "tail", "again", "leaves", "inner")
    )

    def tree(self, part: Node) -> dict[str, dict[str, int]]:
        """The counts of what each called, of those below the first."""
        found: dict[str, dict[str, int]] = {}
        for each in self.inside(part):
            found.update(self.tree(each))
            inner = self.inside(each)
            if inner:
                counts = {of.inner[0].whole_text(): self.count_of(of) for of in inner}
                found[each.inner[0].whole_text()] = counts
        return found

    def test_what_is_inlined_stands_in_the_graph(self) -> None:
        page, found, _ = self.example()
        wanted = {
            (each["name"], each["function"]): each["own"]["PAPI_SR_INS"]
            for each in found["inlined"]
        }
        boxes = [each for each in self.flame(page, 1).find("button") if each.whole_text() == "put"]
        count = sum(number(each.given["data-count"]) for each in boxes)
        self.assertEqual((count, wanted["put", "fill"]), (157, 157))
        self.assertEqual({each.given["class"] for each in boxes}, {"bar-of inlined"})
        told = {}
        for row in page.find("table", class_="inner stack")[0].find("tbody")[0].inner:
            name, function = (each.whole_text() for each in row.find("code"))
            told[name, function] = cells(row, 1)[0]
        self.assertEqual(told, wanted)

    def test_a_file_that_cannot_be_written(self) -> None:
        done = self.count("--page", "/none/page", "true")
        self.assertEqual((done.stdout, done.returncode), ("", 1))
        self.assertEqual(done.stderr, "count: /none/page: No such file or directory\n")


class Graphs(Whole):
    """Profiles that are made here."""

    def function(self, name: str, own: int, whole: int) -> ProfiledFunction:
        return ProfiledFunction(("o", hash(name)), name, "", 0, 1, {"E": own}, {"E": whole})

    def flame(
        self, counts: dict[str, tuple[int, int]], calls: dict[tuple[str, str], int]
    ) -> dict[str, float]:
        made = {name: self.function(name, *of) for name, of in counts.items()}
        edges = [
            ProfiledCalls(made[one], "", 0, made[other], 1, {"E": count})
            for (one, other), count in calls.items()
        ]
        total = sum(own for own, _ in counts.values())
        whole = flame_of(ProfileCounts(tuple(made.values()), (), tuple(edges), ()), "E", total)
        self.check(whole)
        return dict(self.ways(whole, ()))

    def check(self, frame: Frame) -> None:
        self.assertLessEqual(sum(each.count for each in frame.inner), frame.count * (1 + 1e-9))
        for each in frame.inner:
            self.check(each)

    def ways(self, frame: Frame, way: tuple[str, ...]) -> Iterator[tuple[str, float]]:
        for each in frame.inner:
            here = (*way, each.name)
            yield " ".join(here) + ("" if each.is_exact else " ?"), round(each.count, 6)
            yield from self.ways(each, here)

    def test_what_several_call_is_shared(self) -> None:
        """`f` is called for 30 by one and for 10 by another, and calls `g` for 20."""
        counts = {"m": (4, 50), "a": (5, 35), "b": (1, 11), "f": (20, 40), "g": (20, 20)}
        calls = {("m", "a"): 35, ("m", "b"): 11, ("a", "f"): 30, ("b", "f"): 10, ("f", "g"): 20}
        wanted = {"m": 50, "m a": 35, "m a f ?": 30, "m a f g ?": 15}
        wanted |= {"m b": 11, "m b f ?": 10, "m b f g ?": 5}
        self.assertEqual(self.flame(counts, calls), wanted)

    def test_functions_that_call_each_other(self) -> None:
        """`a` calls `b` and `d`, `b` calls `a`; what is in inner calls counts in outer ones."""
        counts = {"m": (0, 100), "a": (30, 100), "b": (30, 80), "d": (40, 40)}
        calls = {("m", "a"): 100, ("a", "b"): 80, ("b", "a"): 0, ("a", "d"): 40}
        found = self.flame(counts, calls)
        self.assertEqual((found["m"], found["m a"]), (100, 100))
        self.assertAlmostEqual(found["m a b ?"] / found["m a d ?"], 2, 5)

    def test_several_beginnings(self) -> None:
        """A thread begins where nobody called, also in a function that is called elsewhere."""
        found = self.flame({"m": (10, 30), "t": (60, 60)}, {("m", "t"): 20})
        self.assertEqual(found, {"t ?": 40, "m": 30, "m t ?": 20})

    def test_what_is_too_small_to_see(self) -> None:
        least = round(1 / LEAST)
        counts = {"m": (least - 2, least - 1), "seen": (1, 1), "less": (1, 1)}
        found = self.flame(counts, {("m", "seen"): 1})
        self.assertEqual(set(found), {"m", "m seen", "less"})
        counts["m"] = (2 * least, 2 * least + 1)
        self.assertEqual(set(self.flame(counts, {("m", "seen"): 1})), {"m"})


