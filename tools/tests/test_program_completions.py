"""Completions of papi_count, papi_record, papi_compare and papi_plan: each option that the program
knows, and what can stand behind it."""

from __future__ import annotations

import argparse
import os
import re
import subprocess
from pathlib import Path

from parts.compare.words import compare_words
from parts.planning.words import plan_words
from parts.recording_words import count_words, record_words
from parts.valgrind import cache_folder
from tests.shells import Shell
from tests.support import ROOT, InFolder, needs_command
from tests.whole import needs_papi

WORDS = {
    "count": count_words,
    "record": record_words,
    "compare": compare_words,
    "plan": plan_words,
}
FILES = 3  # the status of candidates for names of files
OF_FILES = {
    "count": "--library --unit --presets --callgrind --page -o --json --csv --keep",
    "record": "-o --unit",
    "compare": "",
    "plan": "--unit --presets",
}
UNIT = str(ROOT / "examples/lab.unit")


def actions(tool: str) -> list[argparse.Action]:
    return [each for each in WORDS[tool](tool)._actions if each.option_strings]


class Programs(InFolder):
    def setUp(self) -> None:
        super().setUp()
        self.place = self.folder / "bin"
        self.place.mkdir()
        for tool in WORDS:
            (self.place / f"papi_{tool}").symlink_to(ROOT / "tools" / tool)
        for tool in ("papi_avail", "papi_native_avail"):
            (self.place / tool).symlink_to(ROOT / "bin" / tool)

    def environment(self) -> dict[str, str]:
        path = f"{self.place}:{os.environ['PATH']}"
        kept = str(cache_folder().parent)  # the program may be there
        home = {"HOME": str(self.folder), "XDG_CACHE_HOME": kept}
        return {**os.environ, **home, "PATH": path, "COLUMNS": "60"}

    def candidates(self, tool: str, *words: str) -> tuple[int, list[str]]:
        command = [str(ROOT / "completions/candidates"), f"papi_{tool}", *words]
        done = subprocess.run(
            command, env=self.environment(), cwd=self.folder, capture_output=True, text=True
        )
        self.assertEqual(done.stderr, "")
        return done.returncode, done.stdout.splitlines()

    def test_each_option(self) -> None:
        """Those that the words of the program have, and those that its help prints."""
        for tool in WORDS:
            known = sorted(name for each in actions(tool) for name in each.option_strings)
            status, found = self.candidates(tool, "-")
            self.assertEqual((status, sorted(found)), (0, known), tool)
            words = [str(self.place / f"papi_{tool}"), "--help"]
            said = subprocess.run(words, env=self.environment(), capture_output=True, text=True)
            told = re.findall(r"^  (?:(-\w), )?(--?[\w-]+)", said.stdout, re.MULTILINE)
            self.assertEqual(sorted(filter(None, sum(told, ()))), known, tool)

    def test_what_stands_behind_an_option(self) -> None:
        """The option is no word of the program itself, so what comes next is told by it."""
        for tool in WORDS:
            for each in actions(tool):
                name = each.option_strings[-1]
                if each.nargs == 0:
                    behind = (0 if tool == "plan" else FILES, [])  # events of no unit, or files
                    self.assertEqual(self.candidates(tool, name, ""), behind, name)
                elif each.choices:
                    self.assertEqual(self.candidates(tool, name, ""), (0, list(each.choices)), name)
                elif name in OF_FILES[tool].split():
                    self.assertEqual(self.candidates(tool, name, ""), (FILES, []), name)
                elif name not in ("--events", "--cpu"):
                    self.assertEqual(self.candidates(tool, name, ""), (0, []), name)
                if each.choices:
                    wanted = [f"{name}={choice}" for choice in each.choices]
                    self.assertEqual(self.candidates(tool, f"{name}="), (0, wanted), name)

    def test_words_of_the_program_that_is_run(self) -> None:
        for tool in ("count", "record"):
            for words in (("prog", "-"), ("--rep", "lines", "prog", "--un"), ("--", "-")):
                self.assertEqual(self.candidates(tool, *words), (FILES, []), words)
        self.assertEqual(self.candidates("compare", "base", "--m"), self.candidates("compare", "-"))

    @needs_papi
    def test_events(self) -> None:
        """Those of the unit, which is that of recordings if no other is named."""
        subprocess.run([str(ROOT / "bin/papi"), "--compile"], capture_output=True, check=True)
        status, found = self.candidates("count", "--events", "PAPI_TOT_INS,")
        self.assertEqual(status, 0)
        for event in ("recorded::L1D_MISS", "PAPI_L1_DCM"):
            self.assertIn(f"PAPI_TOT_INS,{event}", found)
        status, found = self.candidates("count", "--unit", UNIT, "--events", "")
        self.assertIn("lab::MEM:LOADS", found)
        self.assertEqual(self.candidates("plan", "--unit", UNIT, "lab::CYCLES", ""), (0, found))
        listed = [f"CYCLES,{event}" for event in found]
        self.assertEqual(self.candidates("plan", "--unit", UNIT, "CYCLES,"), (0, listed))
        presets = str(ROOT / "examples/recorded.presets")
        found_ones = self.candidates("count", "--presets", presets, "--cpu", "")
        self.assertEqual(found_ones, (0, ["recorded"]))

    @needs_command("bash", "bash")
    def test_in_bash(self) -> None:
        shell = Shell("bash", self.folder, self.environment())
        self.addCleanup(shell.end)
        Path(self.folder, "some.json").touch()
        for begun, ended in (
            ("papi_count --callg", "papi_count --callgrind "),
            ("papi_record --l1d none --mach", "papi_record --l1d none --machine "),
            ("papi_count --machine sp", "papi_count --machine spr "),
            ("papi_compare so", "papi_compare some.json "),
            ("papi_compare --by=f", "papi_compare --by=function "),
            ("papi_count ./some.json --callg", "papi_count ./some.json --callg"),
        ):
            self.assertEqual(shell.after(begun), ended)


