"""Regions of files that programs of tools/ write."""

from __future__ import annotations

import unittest

from parts.command import Fault
from parts.regions import filled, with_region

ONE = "a\n// tools/make_x: begin\nold\n// tools/make_x: end\nb\n"
TWO = (
    "/* tools/make_x: begin first */\n/* tools/make_x: end */\nb\n"
    "/* tools/make_x: begin second */\nold\n/* tools/make_x: end */\n"
)


class Regions(unittest.TestCase):
    def test_the_lines_between_the_marks_are_the_new_ones(self) -> None:
        self.assertEqual(
            with_region("a.rt", ONE, "tools/make_x", ["new", "lines"]),
            ONE.replace("old", "new\nlines"),
        )
        self.assertEqual(
            with_region("a.md", ONE, "tools/make_x", ["new"]), ONE.replace("old", "\nnew\n")
        )
        self.assertEqual(
            with_region("a.c", TWO, "tools/make_x", ["new"], "second"), TWO.replace("old", "new")
        )
        self.assertEqual(
            with_region("a.c", TWO, "tools/make_x", ["new"], "first"),
            TWO.replace("first */\n", "first */\nnew\n"),
        )
        both = ONE + ONE.replace("make_x", "make_y")
        self.assertEqual(
            with_region("a.c", both, "tools/make_y", ["new"]),
            ONE + ONE.replace("make_x", "make_y").replace("old", "new"),
        )

    def test_a_file_without_its_marks_is_refused(self) -> None:
        for text, part in (
            ("", ""),
            (ONE, "first"),
            (ONE.replace("begin", "end"), ""),
            (ONE + ONE, ""),
            ("// tools/make_x: end\n// tools/make_x: begin\n", ""),
            ("// tools/make_x: begin\n" + ONE, ""),
            (ONE + "// tools/make_x: end\n", ""),
            (TWO, ""),
            (TWO, "firs"),
            (TWO + TWO, "first"),
        ):
            with self.assertRaisesRegex(
                Fault, "a.c: the marks of tools/make_x do not stand once each"
            ):
                with_region("a.c", text, "tools/make_x", ["new"], part)

    def test_words_fill_lines_and_are_not_cut(self) -> None:
        self.assertEqual(filled(["a,", "b,", "long-word,"], 10), ["    a, b,", "    long-word,"])
        self.assertEqual(filled(["a", "b"], 3, ""), ["a b"])
