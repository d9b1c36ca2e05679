"""tools/plot: reading a profile, and the picture."""

from __future__ import annotations

import re
import unittest
from xml.etree import ElementTree

from parts.chart import LONGEST_NAME, MOST_BARS
from parts.command import Fault
from parts.profile import Bucket, read_profile
from tests.support import ROOT, run_tool

# The first worked example of papi_profil, and one with more in it.
SMALL = "range init 0\nrange loop 1\n0x4 1\noutside 1\ntotal 2\n"
LARGE = "range cold 0\nrange warm 10\n0x10 4\n0x14 6\nrange hot 85\n0x20 85\noutside 5\ntotal 100\n"


def texts(picture: str, kind: str) -> list[str]:
    """The texts of a class in the order in which they stand."""
    root = ElementTree.fromstring(picture)
    return [
        element.text or "" for element in root.iter("{http://www.w3.org/2000/svg}text")
        if element.get("class") == kind
    ]


class Reading(unittest.TestCase):
    def test_a_profile(self) -> None:
        profile = read_profile(LARGE.splitlines())
        self.assertEqual(
            [(function.name, function.hits) for function in profile.functions],
            [("cold", 0), ("warm", 10), ("hot", 85)],
        )
        self.assertEqual((profile.outside, profile.total), (5, 100))
        self.assertEqual(profile.functions[1].hottest(), Bucket(0x14, 6))
        self.assertIsNone(profile.functions[0].hottest())

    def test_refusals(self) -> None:
        cases = (
            ("", "does not end with a line `total`"),
            ("range a 0\noutside 0\n", "does not end with a line `total`"),
            ("0x4 1\noutside 1\ntotal 2\n", "line 1: not a line"),
            ("range a x\n", "line 1: not a line"),
            ("outside 0\nrange a 0\ntotal 0\n", "line 2: not a line"),
            ("range a 2\n0x4 1\noutside 0\ntotal 2\n", "the buckets of a do not add up to 2"),
            ("range a 1\n0x4 1\noutside 0\ntotal 2\n", "do not add up to 2"),
        )
        for text, cause in cases:
            with self.assertRaisesRegex(Fault, cause, msg=text):
                read_profile(text.splitlines())


class Picture(unittest.TestCase):
    def draw(self, text: str, *words: str) -> str:
        done = run_tool("plot", *words, text=text)
        self.assertEqual((done.returncode, done.stderr), (0, ""))
        return done.stdout

    def test_hottest_first_with_shares(self) -> None:
        picture = self.draw(LARGE, "--title", "Misses & more")
        self.assertEqual(texts(picture, "title"), ["Misses & more"])
        self.assertEqual(texts(picture, "name"), ["hot", "85.0 %", "warm", "10.0 %", "5.0 %"])
        self.assertEqual(texts(picture, "quiet"), [
            "100 overflows, none in 1 other function", "100.0 % at 0x20", "60.0 % at 0x14",
            "outside the map", "",
        ])

    def test_the_worked_example(self) -> None:
        self.assertEqual(texts(self.draw(SMALL), "name"), ["loop", "50.0 %", "50.0 %"])

    def test_an_empty_profile(self) -> None:
        picture = self.draw("range a 0\noutside 0\ntotal 0\n")
        self.assertEqual(texts(picture, "quiet"), ["0 overflows, none in 1 other function"])

    def test_the_longest_name_and_one_longer(self) -> None:
        names = ["n" * LONGEST_NAME, "m" * (LONGEST_NAME + 1)]
        picture = self.draw(
            "".join(f"range {name} 1\n0x1 1\n" for name in names) + "outside 0\ntotal 2\n"
        )
        self.assertEqual(
            texts(picture, "name")[::2], [names[0], "m" * (LONGEST_NAME - 1) + "\u2026"]
        )

    def test_the_most_bars(self) -> None:
        """All have bars up to the limit. Behind it the others share one, which stands before what
        is outside."""
        for many, last in ((MOST_BARS, f"f{MOST_BARS - 1}"), (MOST_BARS + 1, "1 other function")):
            rows = "".join(f"range f{number} 1\n{number:#x} 1\n" for number in range(many))
            picture = self.draw(f"{rows}outside 0\ntotal {many}\n")
            self.assertIn(last, texts(picture, "quiet") + texts(picture, "name"))
            self.assertEqual(picture.count("<rect"), 1 + 2 * min(many, MOST_BARS + 1))

    def test_many_functions_and_long_names(self) -> None:
        rows = "".join(
            f"range {'n' * 40}{number} 1\n{number:#x} 1\n" for number in range(MOST_BARS + 5)
        )
        picture = self.draw(f"{rows}outside 0\ntotal {MOST_BARS + 5}\n")
        self.assertIn("5 other functions", texts(picture, "quiet"))
        self.assertLess(len(picture), 60_000)

    def test_refusals(self) -> None:
        done = run_tool("plot", text="words\n")
        self.assertEqual((done.returncode, done.stdout), (1, ""))
        self.assertEqual(
            done.stderr, "plot: standard input: line 1: not a line of papi_profil's output\n"
        )
        self.assertEqual(run_tool("plot", "file").returncode, 2)
        self.assertEqual(run_tool("plot", "--help").returncode, 0)

    def test_the_picture_of_the_readme(self) -> None:
        folder = ROOT / "examples/profile"
        title = "Cache misses of product.c, one overflow every 256"
        self.assertEqual(
            self.draw((folder / "product.profile").read_text(), "--title", title),
            (folder / "product.svg").read_text(),
        )

    def test_the_pictures_of_the_kernels(self) -> None:
        folder = ROOT / "examples/c"
        titles = re.findall(
            r"^draw (\w+) \w+ '(.*)'$", (folder / "pictures").read_text(), re.MULTILINE
        )
        self.assertEqual([name for name, _ in titles], ["daxpy", "stencil", "hash_join", "sort"])
        for name, title in titles:
            drawn = self.draw((folder / f"{name}.profile").read_text(), "--title", title)
            self.assertEqual(drawn, (folder / f"{name}.svg").read_text(), name)
