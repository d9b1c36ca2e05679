"""tools/draw_crates: levels, lines and the picture."""

from __future__ import annotations

import re
import unittest
from xml.etree import ElementTree

from parts.crate_graph import BOX_GAP, lay_out, levels, nearest, read_crates
from parts.crate_picture import GROUPS, _legend, draw_crates
from tests.support import ROOT, InFolder, run_tool

SVG = "{http://www.w3.org/2000/svg}"
CITED = {"app": ["base", "list", "text"], "base": [], "list": ["base"], "text": ["base", "list"]}


class Crates(InFolder):
    def test_reading(self) -> None:
        path = self.write(
            "crates.txt", "# all\nlist: base csv\nbase: \n\ntop: list base # the program\n"
        )
        self.assertEqual(
            read_crates(self.folder / "crates.txt"),
            {"base": [], "list": ["base"], "top": ["base", "list"]}, path,
        )

    def test_levels_and_nearest(self) -> None:
        self.assertEqual(levels(CITED), {"base": 0, "list": 1, "text": 2, "app": 3})
        self.assertEqual(
            nearest(CITED), {"app": ["text"], "base": [], "list": ["base"], "text": ["list"]}
        )

    def test_boxes_stand_apart(self) -> None:
        layout = lay_out(read_crates(ROOT / "crates.txt"))
        for row in layout.rows:
            for left, right in zip(row, row[1:]):
                self.assertGreaterEqual(
                    right.x - left.x, (left.width + right.width) / 2 + BOX_GAP - 0.01
                )
            self.assertGreaterEqual(row[0].x - row[0].width / 2, 0)
            self.assertLessEqual(row[-1].x + row[-1].width / 2, layout.width)


class Picture(unittest.TestCase):
    def test_each_crate_once(self) -> None:
        root = ElementTree.fromstring(draw_crates(CITED))
        names = [
            element.text for element in root.iter(f"{SVG}text") if element.get("class") == "name"
        ]
        self.assertEqual(sorted(names), sorted(CITED))
        self.assertEqual(len([element for element in root.iter(f"{SVG}path")]), 3)

    def test_no_crates_have_the_height_of_one(self) -> None:
        heights = [
            ElementTree.fromstring(draw_crates(listed)).get("height")
            for listed in ({}, {"base": []})
        ]
        self.assertEqual(heights[0], heights[1])

    def test_hostile_names_show_as_text(self) -> None:
        names = ["</text><script>", "a&b", "plain"]
        root = ElementTree.fromstring(draw_crates({name: [] for name in names}))
        self.assertEqual(
            sorted(
                element.text or "" for element in root.iter(f"{SVG}text")
                if element.get("class") == "name"
            ),
            sorted(names),
        )

    def test_what_is_not_drawn_is_told(self) -> None:
        picture = draw_crates({**CITED, "tool_tests": ["app"], "crate_tests": ["app"]})
        self.assertIn("Not drawn are the tests: crate_tests, tool_tests.", picture)
        self.assertNotIn("Not drawn", draw_crates(CITED))

    def test_the_groups_end_before_the_margin(self) -> None:
        cited = {names[0]: [] for names in GROUPS.values()}
        for width in range(300, 900, 10):
            texts = re.findall(
                r'<text class="quiet" x="([0-9.]+)"[^>]*>([^<]*)<', "".join(_legend(cited, width))
            )
            self.assertEqual(len(texts), len(GROUPS))
            self.assertEqual(
                [text for x, text in texts if float(x) + 6.4 * len(text) > width], [], width
            )

    def test_a_picture_that_is_out_of_date(self) -> None:
        done = run_tool("draw_crates", "--check", str(ROOT / "crates.txt"))
        self.assertEqual((done.returncode, done.stdout), (1, ""))
        self.assertIn("is out of date", done.stderr)


if __name__ == "__main__":
    unittest.main()
