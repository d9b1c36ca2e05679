"""tools/make_tools: what other files have of the table of tools."""

from __future__ import annotations

import os
import tempfile
import unittest
from pathlib import Path

from parts.command import Fault
from parts.steps_rows import MOST_NAME, WIDTH, public_functions
from parts.tool_lists import (
    LISTS, NAMES, REGIONS, example_texts, laid_out, made_texts, with_list, with_names,
)
from parts.tool_table import COLUMNS, TABLE, camel, read_tools
from tests.support import ROOT, before_and_after, run_tool, some

HEAD = ",".join(COLUMNS) + "\n"
LINE = (
    "papi_some,some,listing::some_list,text,event,some,some,some_all,\"lists some, or one\",some "
    "of them,Some.\n"
)
USAGE = (
    "Usage: papi_some -U UNIT A|B\n\nLists some.\n\nExample, at the top of the repository:\n\n"
    "  bin/papi_some -U examples/lab.unit examples\n  first: 1\n\n    more\n"
)
KINDS = {
    "text": (
        "listing::some_list", "some_list(alloc, files, words)",
        "quiet (some_verdict openings words)",
        "of_quiet (some_verdict openings words) (of_some openings words)",
    ),
    "telling": (
        "listing::some_list", "some_list(rt, alloc, files, words, handlers)",
        "some_verdict openings words", "of_some openings words",
    ),
    "quiet": (
        "listing::some_list", "some_list(rt, alloc, files, words)",
        "quiet (some_verdict openings words)",
        "of_quiet (some_verdict openings words) (of_some openings words)",
    ),
    "own": (
        "listing::some_list", "some_list(rt, alloc, words, handlers)", "some_verdict words",
        "of_some words",
    ),
}


def made_after(line: str) -> tuple[dict[str, str], dict[str, str]]:
    usages = [str(path.relative_to(ROOT)) for path in ROOT.glob("bin/usage/papi_*")]
    return before_and_after(
        line, TABLE, (*made_texts(), *usages), made_texts, {"bin/usage/papi_some": USAGE}
    )


class MakeTools(unittest.TestCase):
    def test_no_file_is_out_of_date(self) -> None:
        done = run_tool("make_tools", "--check")
        self.assertEqual((done.returncode, done.stdout, done.stderr), (0, "", ""))

    def test_each_tool_has_its_script_its_usage_and_its_examples(self) -> None:
        for tool in some(read_tools((ROOT / TABLE).read_text(encoding="utf-8"))):
            self.assertTrue(os.access(ROOT / "bin" / tool.name, os.X_OK), tool.name)
            self.assertTrue((ROOT / "bin/usage" / tool.name).is_file(), tool.name)
            for example in (tool.example, tool.reads):
                self.assertEqual(
                    (ROOT / f"examples/{example}.words").read_text().splitlines()[0], tool.name
                )
        self.assertEqual(
            sorted(tool.name for tool in read_tools((ROOT / TABLE).read_text(encoding="utf-8"))),
            sorted(path.name for path in (ROOT / "bin").glob("papi_*")),
        )

    def test_a_new_row_of_the_table_changes_each_file(self) -> None:
        before, after = made_after(LINE)
        for name in some(before):
            changes = name in (
                *REGIONS, *LISTS, *NAMES, "checks/running.py", "examples/titles", "docs/FORMATS.md",
            )
            self.assertEqual(after[name] != before[name], changes, name)
        self.assertEqual(
            {name for name in after if name not in before},
            {"bin/papi_some", "examples/some.words", "examples/some.expected"},
        )
        self.assertIn(
            "| `papi_some` | `-U UNIT A\\|B` | some of them |\n", after["docs/FORMATS.md"]
        )
        self.assertIn("\n  papi_some           lists some, or one\n\n", after["bin/usage/papi"])
        self.assertIn(
            " | [papi_some](docs/TOOLS.md#papi_some) | lists some, or one |\n", after["README.md"]
        )
        self.assertIn("\nsome: Some.\n", after["examples/titles"])
        self.assertIn('    "papi_some": "some_all",\n', after["checks/running.py"])
        self.assertEqual(
            after["completions/kistalub.zsh"].count(" papi_run papi_soak papi_some\n"), 2
        )
        self.assertIn('--tool papi_some "$@"\n', after["bin/papi_some"])
        self.assertEqual(after["examples/some.words"], "papi_some\n-U\nlab.unit\nexamples\n")
        self.assertEqual(after["examples/some.expected"], "first: 1\n\n  more\n")
        self.assertNotIn("examples/decode.expected", after)

    def test_the_words_of_a_new_tool(self) -> None:
        _, after = made_after(LINE)
        for name, row in (
            ("src/lib.rt", '        "papi_some" => Ok(Command::Some(read_tool(alloc, words)?)),\n'),
            ("src/command.rt", "    /// `papi_some`: lists some, or one.\n    Some(SomeWords),\n"),
            ("specs/Lib.antt", "pub mod SomeForm\n"),
            ("specs/Form.antt", '    ∷ tool (codes "papi_some") Some some_form\n'),
        ):
            self.assertIn(row, after[f"crates/tool_words/{name}"])

    def test_each_kind_of_tool_has_its_rows(self) -> None:
        for kind, (steps, call, verdict, own) in some(KINDS.items()):
            _, after = made_after(LINE.replace(",text,", f",{kind},"))
            self.assertIn(
                f"        Command::Some(words) => {call},\n", after["crates/papi_tools/src/top.rt"]
            )
            self.assertIn(
                f"command_verdict openings (Some words) = {verdict}\n",
                after["crates/papi_tools/specs/Verdict.antt"],
            )
            self.assertIn(
                f"of_command openings (Some (Some words)) = {own}\n",
                after["crates/papi_tools/proofs/OwnStatusLemmas.antt"],
            )
            self.assertIn(
                f"mod {steps.partition('::')[0]};\n", after["crates/papi_tools/src/lib.rt"]
            )
            self.assertEqual(
                "pub fn some<R" in after["crates/papi_tools/src/tool.rt"], kind != "own"
            )
            self.assertIn(
                "returns-in-Some-clause-tells g c = rw c.in-Some.is",
                after["crates/papi_tools/proofs/top/carried_out/Answers.antt"],
            )

    def test_a_line_of_a_clause_with_a_long_name_fits(self) -> None:
        for length in (9, 18, 19, 28):
            tool = read_tools(HEAD + LINE.replace("papi_some", "papi_" + "s" * (length - 5)))[0]
            lines = public_functions([tool])
            self.assertLessEqual(max(map(len, lines)), WIDTH, tool.name)
            self.assertIn(
                "        err.new }" if len(tool.name) > MOST_NAME else "err.old err.new }",
                "\n".join(lines),
            )

    def test_who_says_no(self) -> None:
        for says, row in (("event", "IsSome words.event"), ("any", "Unit {0}"), ("", "")):
            text = made_after(LINE.replace(",event,", f",{says},"))[1][
                "crates/papi_tools/specs/Looking.antt"
            ]
            self.assertEqual(f"SaysNo (Some (Some words)) = {row}\n" in text, bool(row), says)
            self.assertIn("SaysNo _ = ⊥\n", text)

    def test_a_bad_row_is_refused_with_its_number(self) -> None:
        for text, what in (
            ("papi_some\n", "not 11 fields"),
            (LINE.replace("papi_some", "some"), "bad name"),
            (LINE.replace("listing::some_list", "some_list"), "bad steps"),
            (LINE.replace("text", "other"), "bad kind"),
            (LINE.replace(",event,", ",never,"), "bad says_no"),
            (LINE.replace("lists some", "l" * 80), "bad does"),
            (LINE.replace("Some.", ""), "bad caption"),
            (LINE + LINE, "name stands twice"),
            (LINE + LINE.replace("papi_some,some", "papi_more,more"), "steps stands twice"),
        ):
            with self.assertRaises(Fault) as raised:
                read_tools("# a comment\n" + HEAD + text)
            self.assertEqual(
                str(raised.exception), f"{TABLE}: line {text.count(chr(10)) + 2}: {what}", text
            )
        with self.assertRaisesRegex(Fault, "no tool"):
            read_tools("# a comment\n" + HEAD)
        with self.assertRaisesRegex(Fault, "line 1: the columns are not name,words"):
            read_tools(HEAD.replace("words,", "") + LINE)

    def test_names(self) -> None:
        self.assertEqual(camel("native_avail"), "NativeAvail")
        tool = read_tools(HEAD + LINE)[0]
        self.assertEqual(
            (tool.variant, tool.type, tool.module, tool.function, tool.does),
            ("Some", "SomeWords", "listing", "some_list", "lists some, or one"),
        )

    def test_below_a_definition_stands_an_empty_line(self) -> None:
        for name, lines, laid in (
            ("a.rt", ["x"], ["x"]), ("a.antt", ["x"], ["x", ""]), ("a.antt", ["use x"], ["use x"]),
            ("a.antt", ["pub mod x"], ["pub mod x"]),
        ):
            self.assertEqual(laid_out(name, lines), laid, name)

    def test_a_file_without_its_list_is_refused(self) -> None:
        self.assertEqual(
            with_list("a.md", "Head:\n\nold\nolder\n\nMore.\n", "Head:\n\n", ["new"]),
            "Head:\n\nnew\n\nMore.\n",
        )
        for text in ("", "Head:\n\nold\n\nHead:\n\nold\n\n"):
            with self.assertRaisesRegex(Fault, "a.md: does not have once: Head:"):
                with_list("a.md", text, "Head:\n\n", ["new"])
        tools = read_tools(HEAD + LINE)
        self.assertEqual(
            with_names("a", "for papi_a papi_b\nfor papi_a in\n", "for ", tools),
            "for papi_compare papi_count papi_plan papi_record papi_some\nfor papi_a in\n",
        )
        with self.assertRaisesRegex(Fault, "a: does not have once: for papi_.."):
            with_names("a", "for\n", "for ", tools)

    def test_a_usage_without_an_example_is_refused(self) -> None:
        with tempfile.TemporaryDirectory() as folder:
            (Path(folder) / "bin/usage").mkdir(parents=True)
            (Path(folder) / "bin/usage/papi_some").write_text("Usage: papi_some\n\nLists some.\n")
            with self.assertRaisesRegex(Fault, "bin/usage/papi_some: does not end with an example"):
                example_texts(read_tools(HEAD + LINE)[0], Path(folder))
