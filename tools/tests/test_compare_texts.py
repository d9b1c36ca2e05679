"""tools/compare: what can't be compared, and how a comparison is written."""

from __future__ import annotations

import csv
import io
import subprocess
from pathlib import Path

from tests.comparing import HUGE, INS, SUM, Comparing, counts, rank, region
from tests.support import TOOLS, run_tool


class Apart(Comparing):
    """What can't be compared has status 2 and its reason, and no table."""

    def test_counts_of_another_kind(self) -> None:
        base = counts(A=1)
        unit, presets = {"name": "icl.unit", "sha256": "cd" * 32}, {"name": "p", "sha256": SUM}
        cases: tuple[tuple[str, object, str], ...] = (
            (
                "unit",
                unit,
                "unit: skl.unit (sha256 abababababab), and icl.unit (sha256 cdcdcdcdcdcd)",
            ),
            ("presets", presets, "presets: none, and p (sha256 abababababab)"),
            ("cpu", "skl", "cpu: none, and skl"),
            ("machine", {"l1d": "64,8,64"}, "machine: l1d: 512,8,64, and 64,8,64"),
            ("machine", {"l1d": "512,8,64", "l2": "none"}, "machine: l2: none, and none"),
            ("functions_counted", ["main"], "counted functions: all, and main"),
            ("ended", {"signal": 11}, "end: status 0, and signal 11"),
        )
        for name, value, line in cases:
            self.assert_apart(
                base, {**base, name: value}, f"base.json and new.json can't be compared: {line}"
            )
        self.assert_apart(
            base,
            counts(A=1, C=3, B=2),
            "base.json and new.json have other events: only in one of them: B, C",
        )
        self.assert_apart(
            base,
            rank([region("r", -1, PAPI_TOT_INS="1")]),
            "base.json has counts, and new.json regions: these can't be compared",
        )

    def test_a_unit_of_another_name_is_the_same(self) -> None:
        self.rows(counts(A=1), {**counts(A=1), "unit": {"name": "other.unit", "sha256": SUM}})

    def test_files_that_are_not_in_the_form(self) -> None:
        base = counts(A=1)
        cases: tuple[tuple[object, str], ...] = (
            ("{", "line 1: not JSON: Expecting property name enclosed in double quotes"),
            ("", "line 1: not JSON: Expecting value"),
            ("[]", "neither counts of a program nor regions of PAPI"),
            ('{"a": 1}', "neither counts of a program nor regions of PAPI"),
            ('{"a": NaN}', "not to be used: NaN is no number"),
            ('{"a": 1, "a": 1}', 'not to be used: a name that stands twice: "a"'),
            (f'{{"a": {"9" * 5000}}}', "not to be used: a number of 5000 digits"),
            ("[" * 200_000, "nested too deep"),
            ({**base, "format": "x"}, "format: not kistalub-counts"),
            ({**base, "version": 2}, "version: not 1, which this program reads"),
            ({**base, "version": True}, "version: not 1, which this program reads"),
            ({**base, "events": []}, "events: no events"),
            ({**base, "events": ["A", "A"]}, "events: an event that stands twice"),
            ({**base, "total": {}}, "total: not a count of each event"),
            ({**base, "total": {"A": 1.0}}, "total: A: not a whole number"),
            ({**base, "total": {"A": True}}, "total: A: not a whole number"),
            ({**base, "unit": "x"}, "unit: not an object"),
            ({**base, "processes": {}}, "processes: not a list"),
            ({**base, "events": ["A", 1]}, "events: 2: not a text"),
        )
        for content, line in cases:
            self.assert_apart(content, base, f"base.json: {line}")
            self.assert_apart(base, content, f"new.json: {line}")
        for name in base:
            self.assertEqual(
                self.compare(
                    base, {key: value for key, value in base.items() if key != name}
                ).returncode,
                2,
                name,
            )

    def test_files_that_can_not_be_read(self) -> None:
        good = self.file("good.json", counts(A=1))
        self.file("latin.json", "")
        Path(self.folder / "latin.json").write_bytes(b'{"\xff": 1}')
        with open(self.folder / "huge.json", "wb") as file:
            file.truncate(1 << 28)
        for name, reason in (
            ("none.json", "No such file or directory"),
            ("latin.json", "not a text in UTF-8"),
            ("huge.json", "too large"),
            (".", "no file rank_N.json"),
        ):
            for words in ((name, good), (good, name)):
                done = run_tool("compare", *words, folder=self.folder)
                self.assertEqual(
                    (done.returncode, done.stdout, done.stderr),
                    (2, "", f"compare: {name}: {reason}\n"),
                )


class Texts(Comparing):
    HOSTILE = "=a|`b`\x1b[2J\n<i>@you\u202e"

    def test_a_table(self) -> None:
        base, new = rank(
            [region("a", -1, A="1", B="1000"), region("b", -1, A="2", B="3")], A="delta", B="delta"
        ), rank(
            [region("a", -1, A="1", B="999"), region("b", -1, A="4", B="3")], A="delta", B="delta"
        )
        wanted = [
            "region  event   base  new  difference   per cent",
            "a       A          1    1           0     0.00 %",
            "        B      1,000  999          -1    -0.10 %",
            "b       A          2    4          +2  +100.00 %  over 2%, +1",
            "        B          3    3           0     0.00 %",
            "4 counts: 1 over its limit",
        ]
        self.assertEqual(
            self.compare(base, new, "--limit", "2%", "--limit", "+1").stdout.splitlines(), wanted
        )
        self.assertEqual(self.compare(base, new).stdout.splitlines()[-1], "4 counts, and no limit")

    def test_markdown(self) -> None:
        base, new = rank([region("a", -1, A="1000")], A="delta"), rank(
            [region("a", -1, A="2000")], A="delta"
        )
        wanted = [
            "| region | event | base | new | difference | per cent |  |",
            "| --- | --- | --: | --: | --: | --: | --- |",
            "| `a` | `A` | 1,000 | 2,000 | +1,000 | +100.00 % | **over 2%** |",
            "",
            "- 1 count: 1 over its limit",
        ]
        self.assertEqual(
            self.compare(base, new, "--limit", "2%", "--markdown").stdout.splitlines(), wanted
        )
        self.assertEqual(
            self.compare(counts(A=1), counts(A=1), "--markdown").stdout.splitlines()[2],
            "| `A` | 1 | 1 | 0 | 0.00 % |  |",
        )

    def test_numbers_are_exact(self) -> None:
        base, new = counts(A=HUGE), counts(A=2 * HUGE)
        self.assertEqual(self.rows(base, new)[("", "A")][:2], (HUGE, 2 * HUGE))
        self.assertIn(
            f"A,{HUGE},{2 * HUGE},{HUGE},100.00,", self.compare(base, new, "--csv").stdout
        )
        self.assertIn(f"{HUGE:,}", self.compare(base, new).stdout)

    def test_names_are_harmless(self) -> None:
        base, new = (
            rank(
                [
                    region("r", -1, **{self.HOSTILE: "1"}),
                    region(self.HOSTILE, -1, **{self.HOSTILE: count}),
                    region(self.HOSTILE + count, -1, **{self.HOSTILE: "1"}),
                ],
                **{self.HOSTILE: "delta"},
            )
            for count in ("1", "2")
        )
        for form in ((), ("--markdown",), ("--csv",), ("--json",)):
            done = self.compare(base, new, *form)
            self.assertEqual(done.returncode, 0, done.stderr)
            self.assertFalse(
                [
                    letter
                    for letter in done.stdout + done.stderr
                    if not letter.isprintable() and letter != "\n"
                ],
                form,
            )
        plain = r"=a|`b`\x1b[2J\n<i>@you\u202e"
        rows = list(csv.reader(io.StringIO(self.compare(base, new, "--csv").stdout)))
        self.assertEqual(
            [row[:2] for row in rows[1:]],
            [["r", f"'{plain}"]] + [[f"'{plain}{end}", f"'{plain}"] for end in ("", "1", "2")],
        )
        line = self.compare(base, new, "--markdown").stdout.splitlines()[3]
        cell = "``" + plain.replace("|", r"\|") + "``"
        self.assertEqual(line, f"| {cell} | {cell} | 1 | 2 | +1 | +100.00 % |  |")
        self.assert_apart(
            base,
            rank([region(self.HOSTILE, 0, **{self.HOSTILE: "1"})], **{self.HOSTILE: "delta"}),
            f"new.json: region {plain}: in over 64 others, or in itself",
        )

    def test_code_of_markdown_may_have_its_marks_at_its_ends(self) -> None:
        for name, cell in (("`a", "`` `a ``"), ("a``", "``` a`` ```"), ("a", "`a`")):
            one = counts(**{name: 1})
            row = self.compare(one, one, "--markdown").stdout.splitlines()[2]
            self.assertTrue(row.startswith(f"| {cell} | 1 |"), row)

    def test_csv_names_each_limit(self) -> None:
        done = self.compare(counts(A=1), counts(A=9), "--csv", "--limit", "2%", "--limit", "+3")
        self.assertEqual(done.stdout.splitlines()[1], ",A,1,9,8,800.00,2% +3")

    def test_csv_has_notes_on_standard_error(self) -> None:
        base = {**counts(A=1), "command": ["./other"]}
        done = self.compare(base, counts(A=1), "--csv")
        self.assertEqual(
            (done.stdout, done.stderr),
            (
                "name,event,base,new,difference,percent,over\n,A,1,1,0,0.00,\n",
                "compare: command: ./other in BASE, ./sort 9 in NEW\n",
            ),
        )

    def test_long_names_are_cut_in_a_table_and_whole_in_json(self) -> None:
        name = "n" * 100_000
        base = rank([region(name, -1, PAPI_TOT_INS="1")])
        self.assertIn("n" * 60 + "..", self.compare(base, base).stdout)
        self.assertLess(len(self.compare(base, base).stdout), 1000)
        self.assertEqual(list(self.rows(base, base)), [(name, INS)])

    def test_an_output_that_takes_nothing_is_no_good_end(self) -> None:
        good = self.file("good.json", counts(A=1))
        done = subprocess.run(
            ["sh", "-c", '"$0" "$1" "$1" >/dev/full', str(TOOLS / "compare"), good],
            capture_output=True,
            text=True,
        )
        self.assertEqual(
            (done.returncode, done.stderr),
            (1, "compare: standard output: No space left on device\n"),
        )
