"""checks/clauses: what is a bare limit and what is none, and which lines are too wide."""

from __future__ import annotations

import re
import subprocess
import tempfile
import unittest
from pathlib import Path

from columns import LEFT_OUT, sources
from tests.support import ROOT, InFolder


PRESETS = int(
    re.findall(
        r"PRESETS: u32 = ([0-9]+);",
        (ROOT / "crates/preset_csv/src/symbols.rt").read_text(encoding="utf-8"),
    )[0]
)


def said_of(
    code: str = "", definition: str = "", proof: str = "", presets: int | None = None
) -> str:
    """What the check says of a crate with this code, this definition and this proof, if there is
    one, beside a table with so many presets, if it has one."""
    with tempfile.TemporaryDirectory() as folder:
        for part, name, text in (
            ("src", "lib.rt", code), ("specs", "Lib.antt", definition),
            ("proofs", "Some.antt", proof),
        ):
            if part == "proofs" and not text:
                continue
            path = Path(folder, "crates/some", part)
            path.mkdir(parents=True)
            (path / name).write_text(text + "\n", encoding="utf-8")
        if presets is not None:
            table = Path(folder, "crates/preset_csv/src/symbols.rt")
            table.parent.mkdir(parents=True)
            table.write_text(f"pub const PRESETS: u32 = {presets};\n", encoding="utf-8")
        return subprocess.run(
            [str(ROOT / "checks/clauses"), folder], capture_output=True, text=True
        ).stdout


class BareLimits(unittest.TestCase):
    def test_a_bare_limit_is_refused_with_its_place(self) -> None:
        for line in (
            "    requires { n < 32 }", "    if all.len() >= 32 {", "    items: [u8; 32],",
            "    for k in 0..32u32 {", "    (32 < length all)",
        ):
            self.assertEqual(
                said_of(line), "crates/some/src/lib.rt:1: 32 is a bare limit\n1 passed, 1 failed\n",
                line,
            )
        for line in (
            "few xs = nat_le 64 (length xs)", "none = replicate 64 None",
            "  pub few : length xs ≤ 64", "  pub long : length xs ≡ 64",
        ):
            self.assertEqual(
                said_of(definition=line),
                "crates/some/specs/Lib.antt:1: 64 is a bare limit\n1 passed, 1 failed\n", line,
            )

    def test_other_numbers_are_no_limits(self) -> None:
        for line in (
            "    requires { n < MOST_SETS }", "    ensures { result < 2 ^ 64 }",
            "    if n >= 1 << 63 {", "// at most 32", "    if n == 0 || n > 9 {",
        ):
            self.assertEqual(said_of(line), "2 passed, 0 failed\n", line)
        self.assertEqual(
            said_of(definition="is_digit b = nat_le 48 b && nat_le b 57"), "2 passed, 0 failed\n"
        )


    def test_a_clause_adds_and_compares_with_no_bare_limit(self) -> None:
        for clause, number in (
            ("{ length out.new < notes + 32 }", "32"), ("few { length places.now ≤ 8 }", "8"),
            ("{ IfSome result (λ v. v < 2 ^ 48) }", "2 ^ 48"),
        ):
            said = said_of(f"    ensures {clause}\n{{\n    let more = notes + 32;\n}}")
            self.assertEqual(
                said, f"crates/some/src/lib.rt:1: {number} is a bare limit\n1 passed, 1 failed\n",
                clause,
            )
        for clause in (
            "{ result ≡ text ++ 32 ∷ word }", "{ result < 2 ^ 8 }", "{ old + 1 ≤ new }",
            "{ result ≡ MOST_ITEMS + 8 * n }",
        ):
            self.assertEqual(said_of(f"    ensures {clause}"), "2 passed, 0 failed\n", clause)

    def test_a_proof_has_no_number_of_presets_and_no_power_of_the_widest_counter(self) -> None:
        for proof, number in (
            (f"long : length rows ≡ {PRESETS}", PRESETS), (f"none book {PRESETS}", PRESETS),
            ("small : n < 2 ^ 48", "2 ^ 48"),
        ):
            self.assertEqual(
                said_of(proof=proof),
                f"crates/some/proofs/Some.antt:1: {number} is a bare limit\n2 passed, 1 failed\n",
                proof,
            )
        for proof in (
            "long : length rows ≡ PRESETS", f"-- the {PRESETS} presets", "digits : n < 2 ^ 32",
            f"at-{PRESETS} = refl",
        ):
            self.assertEqual(said_of(proof=proof), "3 passed, 0 failed\n", proof)

    def test_the_number_of_presets_is_that_of_the_table(self) -> None:
        for presets in (27, 29):
            self.assertIn(
                f":1: {presets} is a bare limit\n2 passed, 1 failed",
                said_of(proof=f"small : i < {presets}", presets=presets),
            )
        self.assertEqual(said_of(proof="small : i < 26", presets=27), "3 passed, 0 failed\n")

    def test_a_number_that_is_also_another_one_is_refused_beside_presets_alone(self) -> None:
        for proof in (
            "length t.rows ≡ 32", "32 ≤ length t.rows", "replicate 32 entry.Missing",
            "replicate 32 (entry.Given x)", "row < 32", "none book 32", "(length preset_rows) ≡ 32",
        ):
            self.assertIn(
                ":1: 32 is a bare limit\n2 passed, 1 failed",
                said_of(proof=f"  pub some : {proof} → One", presets=32), proof,
            )
        for proof in (
            "length t ≡ 32", "32 ≤ length t", "replicate 32 false", "i < 32", "get_or t 10 0 ≡ 32",
            "length rows ≡ 320",
        ):
            self.assertEqual(
                said_of(proof=f"  pub some : {proof} → One", presets=32), "3 passed, 0 failed\n",
                proof,
            )


class WideClauses(unittest.TestCase):
    def test_a_line_over_100_columns_is_refused(self) -> None:
        wide = "    ensures { result ≡ " + "x" * 79
        self.assertEqual(said_of(wide[:98] + " }"), "2 passed, 0 failed\n")
        self.assertEqual(
            said_of(wide[:99] + " }"),
            "crates/some/src/lib.rt:1: a clause has 101 columns\n1 passed, 1 failed\n",
        )

    def test_a_clause_goes_on_to_its_closing_brace(self) -> None:
        clause = (
            "    ensures { result\n        ≡ " + "x" * 100 + " }\n{\n    let s = \"" + "y" * 100
            + "\";\n}"
        )
        self.assertEqual(
            said_of(clause),
            "crates/some/src/lib.rt:2: a clause has 112 columns\n1 passed, 1 failed\n",
        )


class Columns(InFolder):
    """Lines of 100 columns and of 101, in files of a checkout."""

    WIDE = "x" * 101

    def setUp(self) -> None:
        super().setUp()
        table = self.folder / "crates/preset_csv/src/symbols.rt"
        table.parent.mkdir(parents=True)
        table.write_text(f"pub const PRESETS: u32 = {PRESETS};\n", encoding="utf-8")

    def said(self, name: str, text: str) -> str:
        path = self.folder / name
        path.parent.mkdir(parents=True, exist_ok=True)
        path.write_text(text, encoding="utf-8")
        done = subprocess.run(
            [str(ROOT / "checks/clauses"), str(self.folder)], capture_output=True, text=True
        )
        path.unlink()
        return done.stdout.rpartition("\n")[0].rpartition("\n")[0]

    def test_a_wide_line_is_refused_with_its_place(self) -> None:
        python, shell = "#!/usr/bin/env python3\n", "#!/bin/sh\n"
        for name, begin in (
            ("c/some.c", "//\n"), ("c/some.h", "\n"), ("tools/valgrind/some.c", "\n"),
            ("include/papi.h", "\n"), ("examples/c/some.cc", "\n"), ("bench/some.py", "\n"),
            ("tools/some", python), ("checks/some", python), ("python/a/some.py", "\n"),
            ("bin/some", shell), ("bin/hints/some.sh", "\n"), (".ci/some", shell),
        ):
            wanted = f"{name}:2: a line has 101 columns"
            self.assertEqual(self.said(name, f"{begin}{self.WIDE}\n"), wanted)
            self.assertEqual(self.said(name, f"{begin}{self.WIDE[1:]}\n"), "", name)
            self.assertEqual(self.said(name, f"{begin}{'ä' * 100}\n"), "", name)

    def test_what_is_not_looked_at(self) -> None:
        for name in (
            "include/fpapi.h", "bin/usage/some", "tools/some.json", "crates/some/some.c",
            "tools/__pycache__/some.py",
        ):
            self.assertEqual(self.said(name, f"{self.WIDE}\n"), "", name)

    def test_a_text_of_several_lines(self) -> None:
        """It is written as it stands, unless it says what something is."""
        for before, after in (
            ('x = """', '\n"""'), ("x = f'''\n", "\n{y}'''"), ('y("""', '\n")""")'),
        ):
            said = self.said("tools/some.py", f"{before}{self.WIDE}{after}\n")
            self.assertEqual(said, "", before)
        for text, line, columns in (
            (f'"""{self.WIDE}\n"""\n', 1, 104),
            (f'def f():\n    """A.\n\n{self.WIDE}"""\n', 4, 104),
            (f'x = "{self.WIDE}"\n', 1, 107),
            (f'x = """\n"""\n# {self.WIDE}\n', 3, 103),
        ):
            wanted = f"tools/some.py:{line}: a line has {columns} columns"
            self.assertEqual(self.said("tools/some.py", text), wanted)

    def test_each_folder_of_the_repository_has_sources(self) -> None:
        seen = {path.relative_to(ROOT).as_posix() for path, _ in sources(ROOT)}
        for name in (
            ".ci/quick", "bench/run", "bin/papi", "bin/hints/guard.sh", "c/calls.c", "c/thread.h",
            "checks/clauses", "examples/c/check", "include/papi.h", "python/building.py",
            "tools/check", "tools/valgrind/build", "tools/tests/support.py",
        ):
            self.assertIn(name, seen)
        self.assertEqual([name for name in LEFT_OUT if not (ROOT / name).is_file()], [])
