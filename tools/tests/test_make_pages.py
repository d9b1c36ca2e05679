"""tools/make_pages: reading the usage texts, and the manual pages."""

from __future__ import annotations

import argparse
import subprocess
import unittest
from typing import Callable
from unittest import mock

from formats.forms import papi_calls
from formats.refusals import SENTENCES
from formats.scripts import CALLS, REGION_CALLS
from parts.command import Fault
from parts.command_page import Page, command_page, command_section, parser_of
from parts.manual_page import manual_page, synopsis
from parts.tools_page import codes_section, tools_page
from parts.usage import EXAMPLES, ROOT, read_errors, read_usage, summaries, tools
from tests.support import InFolder, needs_command, some


class Usages(unittest.TestCase):
    def test_each_tool_has_a_script_and_a_usage(self) -> None:
        for tool in some(tools()):
            self.assertTrue((ROOT / "bin" / tool).exists(), tool)
            usage = read_usage(tool)
            self.assertTrue(usage.lead and usage.options and usage.examples, tool)
            for word in usage.line.replace("[", " ").replace("]", " ").split():
                if word.startswith("-"):
                    self.assertIn(word, [option.word.split()[0] for option in usage.options], tool)

    def test_each_title_has_an_example(self) -> None:
        for line in some((EXAMPLES / "titles").read_text(encoding="utf-8").splitlines()):
            name, colon, _ = line.partition(": ")
            if colon and not line.startswith("#"):
                self.assertTrue((EXAMPLES / f"{name}.words").exists(), name)

    def test_errors(self) -> None:
        texts = [error.text for error in read_errors()]
        self.assertIn("papi: bad words", texts)
        for error in read_errors():
            self.assertTrue(error.cause.endswith(".") and error.remedy.endswith("."), error.text)

    def test_calls_stand_with_what_they_take(self) -> None:
        """The usage has each call of a script, with its arguments."""
        for tool, calls in (("papi_run", CALLS), ("papi_regions", REGION_CALLS)):
            self.assertEqual(
                [option.word for option in read_usage(tool).calls],
                [" ".join((call, *arguments)) for call, arguments in calls.items()],
            )
        self.assertEqual(papi_calls("papi_run")["PAPI_create_eventset"], "create")
        header = (ROOT / "include/papi.h").read_text(encoding="utf-8")
        for function in (*papi_calls("papi_run"), *papi_calls("papi_regions")):
            self.assertRegex(header, rf"\b{function}\(", function)


class Sections(unittest.TestCase):
    def test_programs_outside_the_proofs(self) -> None:
        parser = parser_of(ROOT / "tools/make_unit")
        lines = command_section(
            parser, Page("does it", "[PMU]", (("0", "Done."),), (("So:", "tools/make_unit skl"),))
        )
        self.assertEqual(lines[:3], ["## make_unit", "", "    make_unit [PMU]"])
        for line in (
            "| `PMU` | the PMU's name in libpfm4, such as skl |", "| 0 | Done. |",
            "tools/make_unit skl",
        ):
            self.assertIn(line, lines)
        self.assertTrue(
            any(line.startswith("| `--counters N` | take the first N") for line in lines)
        )

    def test_each_code_has_its_row(self) -> None:
        rows = [line for line in codes_section() if line.startswith("| `PAPI_")]
        self.assertEqual([row.split("`")[1] for row in rows], list(SENTENCES))
        self.assertIn("| `PAPI_ENOTRUN` | -9 | EventSet is currently not running | `stop`, `raw`: "
                      "the set does not run |", rows)
        for row in rows:
            self.assertRegex(row, r"\| [^|]{8,} \|$")


class Faults(InFolder):
    """What is wrong with a usage text is told with its name."""

    def fault(self, tool: str, text: str, read: Callable[[str], object] = read_usage) -> str:
        self.write(tool, text)
        with mock.patch("parts.usage.USAGE", self.folder), self.assertRaises(Fault) as caught:
            read(tool)
        return str(caught.exception)

    def test_usages(self) -> None:
        self.assertEqual(
            self.fault("some", "Usage: other -U UNIT\n\nDoes it.\n"),
            "bin/usage/some: does not begin with its usage",
        )
        self.assertEqual(
            self.fault("some", "Usage: some -U UNIT\n"),
            "bin/usage/some: does not say what the tool does",
        )
        self.assertEqual(
            self.fault("some", "Usage: some\n\nDoes it.\n\n  -U UNIT\n"),
            "bin/usage/some: a word without a meaning: -U UNIT",
        )

    def test_errors(self) -> None:
        self.assertEqual(
            self.fault("errors", "# all\n\npapi: x\nwords 2\nCause.\n", lambda _: read_errors()),
            "bin/usage/errors: a block has 3 lines and not 4: papi: x",
        )

    def test_what_is_read(self) -> None:
        self.write("papi_some", "Usage: papi_some -U UNIT WORD..\n\nDoes it,\nand that.\n\n"
                                "  WORD..   what\n  -U UNIT  the unit\n\nA note\non it.\n\n"
                                "Example, here:\n\n  no option\n")
        with mock.patch("parts.usage.USAGE", self.folder):
            usage = read_usage("papi_some")
        self.assertEqual(
            (usage.line, usage.lead, usage.notes),
            ("-U UNIT WORD..", "Does it, and that.", ("A note on it.",)),
        )
        self.assertEqual(
            [(option.word, option.meaning) for option in usage.options],
            [("WORD..", "what"), ("-U UNIT", "the unit")],
        )
        self.assertEqual(usage.origins(), {"words", "memory", "output", "unit", "files"})


USAGE = "Usage: papi_some A|B\n\nDoes a|b.\n\n  A|B  one|other\n"
ERRORS = "papi: x|y\nwords 2\nA|cause.\nA|remedy.\n\n(no line)\nunit 1\nAnother.\nNone.\n"


class Tables(InFolder):
    """In a table of Markdown a `|` has a backslash before it, and a row of the manual page has
    mdoc's own."""

    def setUp(self) -> None:
        super().setUp()
        for name, text in (
            ("papi", "Usage\n\n  papi_some  this|that\n"), ("papi_some", USAGE), ("errors", ERRORS),
            ("titles", "one: The first.\n# no\n"), ("one.words", "papi_some\none.words\nA\n"),
            ("one.expected", "out\n"), ("one.errors", "papi: one.words: bad\n"),
        ):
            self.write(name, text)
        for name in ("USAGE", "EXAMPLES"):
            patch = mock.patch(f"parts.usage.{name}", self.folder)
            patch.start()
            self.addCleanup(patch.stop)

    def test_page(self) -> None:
        page = tools_page([]).splitlines()
        for line in (
            "| [papi_some](#papi_some) | this\\|that |", "    papi_some A|B", "Does a|b.",
            "| `A\\|B` | one\\|other |", "| `papi: x\\|y` | 2 | A\\|cause. | A\\|remedy. |",
            "| (no line) | 1 | Another. | None. |", "### Words", "### Unit file (`-U`)",
            "The first.", "$ bin/papi_some examples/one.words A", "out",
            "papi: examples/one.words: bad",
        ):
            self.assertIn(line, page)
        self.assertNotIn("### Script", page)

    def test_manual(self) -> None:
        page = manual_page(read_usage("papi_some"), "this|that", "January 1, 2026").splitlines()
        for line in (
            ".Dt PAPI_SOME 1", ".Nd this|that", ".Ar A\\||B", ".It Ar A\\||B", "One|other.",
            "$ bin/papi_some examples/one.words A", "papi: examples/one.words: bad",
            ".It papi: x|y",
        ):
            self.assertIn(line, page)
        self.assertEqual([line for line in page if "no line" in line], [])


class Manuals(unittest.TestCase):
    def test_a_summary_is_printed_as_it_is(self) -> None:
        page = manual_page(read_usage("papi_run"), r".a \b and c-d", "January 1, 2026").splitlines()
        self.assertIn(r".Nd \&.a \eb and c\-d", page)

    def test_synopsis(self) -> None:
        self.assertEqual(synopsis("-U UNIT [--workers N] NATIVE|PRESET EVENT.."), [
            ".Fl U Ar UNIT", r".Op Fl \-workers Ar N", r".Ar NATIVE\||PRESET", ".Ar EVENT ...",
        ])

    @needs_command("mandoc", "mandoc")
    def test_mandoc_has_nothing_to_say(self) -> None:
        for tool, summary in some(summaries().items()):
            page = manual_page(read_usage(tool), summary, "January 1, 2026")
            done = subprocess.run(
                ["mandoc", "-T", "lint"], input=page, capture_output=True, text=True
            )
            said = [
                line for line in done.stdout.splitlines()
                if "referenced manual not found" not in line
            ]
            self.assertEqual(said, [], tool)

    def test_words_that_argparse_reads(self) -> None:
        parser = argparse.ArgumentParser(prog="papi_some", description="Does it.")
        parser.add_argument("-o", "--out", metavar="A,B", help="where %%r is")
        parser.add_argument("--kind", choices=("one", "two"), help="which")
        parser.add_argument("program", metavar="PROGRAM", help="what")
        page = command_page(
            parser, Page("does it", "[OPTIONS] PROGRAM", (("0", "Done."),), ()), "January 1, 2026"
        ).splitlines()
        for line in (
            ".Dt PAPI_SOME 1", ".Op Ar OPTIONS", ".It Ar PROGRAM", ".It Fl \\-out Ar A,B",
            "Where %r is.", ".It Fl \\-kind Ar one\\||two", ".It 0",
        ):
            self.assertIn(line, page)

    def test_a_summary_shows_as_it_is(self) -> None:
        page = command_page(
            argparse.ArgumentParser(prog="some"), Page("reads a\\b-c", "", (), ()),
            "January 1, 2026",
        ).splitlines()
        self.assertIn(".Nd reads a\\eb\\-c", page)


if __name__ == "__main__":
    unittest.main()
