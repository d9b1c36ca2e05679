"""The version stands in VERSION, and all that tell it say the same."""

from __future__ import annotations

import re
import subprocess
import unittest

from tests.support import ROOT

VERSION = (ROOT / "VERSION").read_text(encoding="ascii").strip()


class Version(unittest.TestCase):
    def test_it_has_three_numbers(self) -> None:
        self.assertRegex(VERSION, r"\A\d+\.\d+\.\d+\Z")

    def test_the_script_of_all_tools(self) -> None:
        ran = subprocess.run([str(ROOT / "bin/papi"), "--version"], capture_output=True, text=True)
        self.assertEqual((ran.returncode, ran.stdout, ran.stderr), (0, f"Kistalub {VERSION}\n", ""))

    def test_the_header_for_c(self) -> None:
        text = (ROOT / "include/kistalub.h").read_text(encoding="ascii")
        self.assertEqual(
            re.findall(r'^#define KISTALUB_VERSION "(.*)"$', text, re.MULTILINE), [VERSION]
        )

    def test_the_newest_part_of_the_changelog(self) -> None:
        text = (ROOT / "CHANGELOG.md").read_text(encoding="utf-8")
        self.assertEqual(re.findall(r"^## (.*)$", text, re.MULTILINE)[0], VERSION)

    def test_no_other_file_has_it(self) -> None:
        """The Python module and the file for pkg-config read VERSION."""
        for path in (
            ROOT / "pyproject.toml", ROOT / "bin/install", *(ROOT / "python").rglob("*.py"),
        ):
            self.assertNotIn(VERSION, path.read_text(encoding="utf-8"), path)
