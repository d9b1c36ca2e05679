"""What checks/papi_programs takes PAPI's own tests to say, and the stream that it makes."""

from __future__ import annotations

import re
import tempfile
import unittest
from pathlib import Path

import papi_sanitized
import papi_stream
from papi_counted import why_of
from papi_ctests import FAIL, PASS, SKIP, UNBUILT, expectations, verdict_of
from papi_library import Files, Ran, run
from tests.support import ROOT, all_of

LINE = re.compile(r"\d+ [0-9a-f]{2} [0-9a-f]{2} [uk] \d+ [0-9a-f]{1,16}\n")


class Verdicts(unittest.TestCase):
    def verdict(self, status: int | None, out: str) -> str:
        return verdict_of(Ran(status, out, ""))[0]

    def test_what_a_test_says(self) -> None:
        self.assertEqual(self.verdict(0, "counts ..\nPASSED\n"), PASS)
        self.assertEqual(self.verdict(0, "\x1b[1;32mPASSED\x1b[0m with WARNING\n"), PASS)
        self.assertEqual(self.verdict(0, "no counters\nSKIPPED\n"), SKIP)
        self.assertEqual(self.verdict(1, "FAILED!!!\nLine # 7 Error: counts\n"), FAIL)

    def test_how_it_ends(self) -> None:
        self.assertEqual(self.verdict(0, ""), PASS)
        self.assertEqual(self.verdict(3, "PASSED\n"), FAIL)
        self.assertEqual(self.verdict(0, "PASSED\nFAILED!!!\n"), FAIL)
        self.assertEqual(verdict_of(Ran(-11, "PASSED\n", "")), (FAIL, "signal SIGSEGV"))
        self.assertEqual(verdict_of(Ran(None, "PASSED\n", "")), (FAIL, "no end in time"))

    def test_each_expectation_has_a_reason(self) -> None:
        for name, (verdict, why) in expectations().items():
            self.assertIn(verdict, (SKIP, FAIL, UNBUILT), name)
            self.assertTrue(why, name)


class Document(unittest.TestCase):
    """docs/C_PROGRAMS.md says how many of PAPI's tests pass, checks/README.md with which settings
    they run under sanitizers."""

    text = (ROOT / "docs/C_PROGRAMS.md").read_text(encoding="utf-8")
    checks = (ROOT / "checks/README.md").read_text(encoding="utf-8")

    def number(self, pattern: str) -> int:
        found = re.search(pattern, self.text)
        assert found, pattern
        return int(found[1])

    def test_the_settings(self) -> None:
        settings = {**papi_sanitized.SETTINGS, **Files(ROOT / "examples/lab.unit").environment()}
        del settings["KISTALUB_UNIT"]
        for name, value in settings.items():
            self.assertTrue(f"`{name}={value}`" in self.checks, name)
        self.assertEqual(papi_sanitized.ROUNDS, 10)
        self.assertTrue("`KISTALUB_STEP` of ten rounds" in self.checks)

    def test_the_numbers(self) -> None:
        others = [
            name for name, (verdict, _) in expectations().items()
            if verdict != UNBUILT and not name.endswith(".F")
        ]
        self.assertEqual(
            self.number(r"C tests (\d+) can be built") - len(others), self.number(r": (\d+) pass\.")
        )


class Sanitized(unittest.TestCase):
    """What is judged of a test that the compiler's sanitizers look at."""

    def test_a_report_of_the_library_alone(self) -> None:
        for kind in ("ERROR: AddressSanitizer", "WARNING: ThreadSanitizer"):
            for place, report in (
                (f"{ROOT}/c/whole_file.c:12", f"{kind} at whole_file.c:12"),
                ("/other/test.c:12", ""),
            ):
                self.assertEqual(
                    papi_sanitized.report_of(f"said\n{kind}: race\n  #0 name {place}\n"), report
                )

    def test_one_that_does_not_end_has_not_passed(self) -> None:
        self.assertEqual(
            [papi_sanitized.ended_in_time(Ran(status, "", "")) for status in (0, 1, -9)],
            ["", "", ""],
        )
        self.assertIn("no end in time", papi_sanitized.ended_in_time(Ran(None, "", "")))


class Programs(unittest.TestCase):
    def test_what_a_program_leaves_behind_is_ended(self) -> None:
        with tempfile.TemporaryDirectory() as folder:
            ran = run(["/bin/sh", "-c", "echo begun; sleep 60 & exit 3"], {}, 10, Path(folder))
        self.assertEqual((ran.status, ran.out), (3, "begun\n"))

    def test_one_that_does_not_end(self) -> None:
        with tempfile.TemporaryDirectory() as folder:
            self.assertIsNone(run(["/bin/sh", "-c", "sleep 60"], {}, 1, Path(folder)).status)


class Stream(unittest.TestCase):
    unit = ROOT / "examples/lab.unit"

    def test_each_event_happens_in_both_modes(self) -> None:
        lines = list(papi_stream.lines(self.unit, papi_stream.round_of(self.unit)))
        self.assertTrue(all_of(lines, LINE.fullmatch))
        happening = {tuple(line.split()[:4]) for line in lines}
        for event in (
            ("0", "c4", "02", "u"), ("0", "d0", "01", "k"), ("1", "10", "00", "u"),
            ("0", "2e", "00", "k"),
        ):
            self.assertIn(event, happening)

    def test_rounds_are_alike(self) -> None:
        count = papi_stream.round_of(self.unit)
        lines = [line.rsplit(" ", 1)[0] for line in papi_stream.lines(self.unit, 2 * count)]
        self.assertEqual(lines[:count], lines[count:])


class Counts(unittest.TestCase):
    """What checks/papi_programs --counted takes for plausible."""

    def why(self, name: str, out: str, err: str = "", status: int = 0) -> str:
        return why_of(name, Ran(status, out, err), out)

    def test_counts(self) -> None:
        line = "PAPI_TOT_INS : \t{} \nPAPI_BR_INS : \t{} \n"
        self.assertEqual(self.why("papi_command_line", line.format(123456, 45678)), "")
        self.assertIn("[123456, 0]", self.why("papi_command_line", line.format(123456, 0)))
        self.assertIn("finds []", self.why("papi_command_line", "no counts\n"))

    def test_times(self) -> None:
        line = (
            "PAPI_get_real_cyc: min {0}.000  max 226.000 \n"
            "PAPI_get_virt_cyc: min {0}.000  max 9.000 \n"
        )
        self.assertEqual(self.why("papi_clockres", line.format(6)), "")
        self.assertNotEqual(self.why("papi_clockres", line.format(0)), "")

    def test_what_is_said(self) -> None:
        said = "\n Counts of papi_version:\n\n      1,234      PAPI_TOT_INS\n"
        self.assertEqual(self.why("papi_version", "PAPI Version: 7.0.0.0\n", said), "")
        self.assertNotEqual(self.why("papi_version", "PAPI Version: 7.0.0.0\n"), "")
        self.assertNotEqual(self.why("papi_avail", "", said), "")
        self.assertNotEqual(self.why("papi_avail", "", status=1), "")
