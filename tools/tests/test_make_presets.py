"""tools/make_presets: what other files have of the table of presets."""

from __future__ import annotations

import re
import unittest

from parts.command import Fault
from parts.preset_table import (
    MADE, REGIONS, TABLE, made_texts, read_presets, with_listing, with_number,
)
from tests.support import ROOT, before_and_after, run_tool, some

LINE = "PAPI_TOT_INS,0x80000032,Instructions completed\n"
THREE = read_presets(
    "PAPI_L1_DCM,0x80000000,Misses\n" + LINE + "PAPI_REF_CYC,0x8000006b,Clock cycles\n"
)
TOTAL = re.compile(r"Of (\d+) possible events")


def made_after(line: str) -> tuple[dict[str, str], dict[str, str]]:
    return before_and_after(line, TABLE, MADE, made_texts)


def in_rows(*lines: str) -> str:
    """A file of rows whose list has these lines."""
    return "\n".join(
        (
            "row All.", "words papi_avail", "out",
            "  Name          Code        Avail  Deriv  Description",
            *(f"  {line}" for line in lines), "", "row More.", "",
        )
    )


class MakePresets(unittest.TestCase):
    def test_no_file_is_out_of_date(self) -> None:
        done = run_tool("make_presets", "--check")
        self.assertEqual((done.returncode, done.stdout, done.stderr), (0, "", ""))

    def test_a_new_line_of_the_table_changes_each_file(self) -> None:
        before, after = made_after("PAPI_ONE_MORE,0x8000006c,One more\n")
        presets = len(read_presets((ROOT / TABLE).read_text(encoding="utf-8")))
        for name in MADE:
            self.assertNotIn("PAPI_ONE_MORE", before[name])
            self.assertNotEqual(after[name], before[name], name)
        for name in REGIONS:
            self.assertEqual(after[name].count("PAPI_ONE_MORE"), 1, name)
        code = after["crates/preset_csv/src/symbols.rt"]
        self.assertIn(f'        {presets - 1} => ("PAPI_REF_CYC", 0x8000006b),\n'
                      '        _ => ("PAPI_ONE_MORE", 0x8000006c),\n', code)
        self.assertIn(f"pub const PRESETS: u32 = {presets + 1};", code)
        self.assertIn(" PAPI_REF_CYC, PAPI_ONE_MORE,\n};\n", after["c/presets.c"])
        self.assertIn(
            "\nPAPI_ONE_MORE 0x8000006c  No     No     One more\nOf ",
            after["examples/avail_all.expected"],
        )
        self.assertIn(f" and {presets + 1} of PAPI's presets are known", after["docs/FORMATS.md"])

    def test_each_number_of_possible_events_is_made(self) -> None:
        before, after = made_after("PAPI_ONE_MORE,0x8000006c,One more\n")
        named = [
            path.relative_to(ROOT) for pattern in ("examples/*.expected", "examples/rows/*.rows")
            for path in ROOT.glob(pattern)
        ]
        for name in some(
            str(path) for path in named if TOTAL.search((ROOT / path).read_text(encoding="utf-8"))
        ):
            numbers = [int(number) + 1 for number in TOTAL.findall(before.get(name, ""))]
            self.assertEqual(
                [int(number) for number in TOTAL.findall(after.get(name, ""))], some(numbers), name
            )

    def test_a_list_keeps_what_it_says_of_each_preset(self) -> None:
        total = "PAPI_TOT_INS  0x80000032  Yes    No     Instructions completed"
        others = (
            "PAPI_L1_DCM   0x80000000  No     No     Misses",
            "PAPI_REF_CYC  0x8000006b  No     No     Clock cycles",
        )
        for old, new in (
            ((total, "Of 1"), (others[0], total, others[1], "Of 1")),
            ((total.replace("completed", "that end"), others[1]), (others[0], total, others[1])),
            (
                ("2 times: PAPI_...", total, "EVENT 0xc0000000"),
                ("1 times: PAPI_...", total, "1 times: PAPI_...", "EVENT 0xc0000000"),
            ),
            (("PAPI_...",), ("3 times: PAPI_...",)),
        ):
            self.assertEqual(
                with_listing("a.rows", in_rows(*old), "row All.", THREE), in_rows(*new)
            )

    def test_a_file_without_its_list_or_its_number_is_refused(self) -> None:
        for text in (
            "", in_rows("Of 1").replace("row All.", "row One."), in_rows("Of 1") + in_rows("Of 1"),
            "row All.\n\n" + in_rows("Of 1").replace("row All.", "row One."),
        ):
            with self.assertRaisesRegex(Fault, "a.rows: no list of presets below: row All."):
                with_listing("a.rows", text, "row All.", THREE)
        self.assertEqual(
            with_number("a.md", "Of 2 presets. Of 3 presets. Of 4 events.", "Of {n} presets", 7),
            "Of 7 presets. Of 7 presets. Of 4 events.",
        )
        self.assertEqual(
            with_number("a.md", "Of 9 events. Of 9 presets.", "Of {n+2} events", 26),
            "Of 28 events. Of 9 presets.",
        )
        with self.assertRaisesRegex(Fault, "a.md: nothing reads: Of {n} events"):
            with_number("a.md", "Of some events", "Of {n} events", 26)

    def test_a_bad_line_is_refused_with_its_number(self) -> None:
        for text, what in (
            ("PAPI_TOT_INS,0x80000032\n", "not three fields"),
            ("PAPI_tot,0x80000032,Instructions completed\n", "bad symbol"),
            (LINE + LINE, "bad symbol"),
            ("PAPI_TOT_INS,50,Instructions completed\n", "bad code"),
            (LINE + "PAPI_LD_INS,0x80000031,Load instructions\n", "bad code"),
            ("PAPI_TOT_INS,0x80000032,\"Instructions\"\n", "bad description"),
        ):
            with self.assertRaises(Fault) as raised:
                read_presets("# a comment\n" + text)
            self.assertEqual(
                str(raised.exception), f"{TABLE}: line {text.count(chr(10)) + 1}: {what}", text
            )
        with self.assertRaisesRegex(Fault, "no preset"):
            read_presets("# a comment\n")
