"""The guide to the definitions: what it reaches, from a contract on, in a repository of two small
crates."""

from __future__ import annotations

import shutil
import subprocess
import unittest

from parts.command import Fault
from parts.definitions import Definitions as DefinitionsOf, Place as Named, statements
from parts.definitions_page import guide_page, read_guide, total_line
from tests.support import TOOLS, InFolder, some

TOP = """ghost use Rattle.papi_tools.specs.Top.{Good};
use low::Kind;

pub fn papi_main(k: Kind) -> u8
    ensures good { Good k result }
{
    0
}
"""
TOP_SPECS = """-- What a call gives.
use Rattle.std.specs.Prelude.{ℕ, ◌≡◌}
use Rattle.low.specs.Numbers as Numbers
use Rattle.low.specs.declared.kind.Kind.{Kind}
use Rattle.low.specs.declared.kind.Kind.TheVariants.{First}

-- the number is that of the kind
pub record Good (k : Kind) (n : ℕ) : Type 0 where
  -- a comment
  pub same : n ≡ Numbers.number k

-- nobody cites it
abbrev pub other : ℕ
other = 0
"""
LOW_SPECS = """use Rattle.low.specs.declared.limits.TheConstants.{MOST}
use Rattle.low.specs.declared.kind.Kind.{Kind}

-- the number | of a kind
unfoldable pub number : Kind → ℕ
number First = MOST
number Second = twice 1

-- twice
-- a number
abbrev pub twice : ℕ → ℕ
twice n = n + n
"""
LAWS = """ghost use Rattle.papi_c.specs.Histories.{Each};

pub fn history_law()
    ensures { Each }
{}
"""
HISTORIES = """use Rattle.low.specs.Numbers.{twice}

-- each is twice itself
abbrev pub Each : Type 0
Each = (n : ℕ) → twice n ≡ n + n
"""
FILES = {
    "crates.txt": "low:\npapi_tools: low\npapi_c: low\n",
    "crates/papi_c/src/laws.rt": LAWS,
    "crates/papi_c/specs/Histories.antt": HISTORIES,
    "docs/ARCHITECTURE.md": (
        "| Crate | Holds |\n|---|---|\n| `papi_tools` | the tools |\n| `low` | numbers of PAPI |\n"
    ),
    "crates/papi_tools/src/top.rt": TOP,
    "crates/papi_tools/specs/Top.antt": TOP_SPECS,
    "crates/low/src/kind.rt": (
        "/// A kind.\n#[derive(Drop)]\npub enum Kind {\n    // one\n    First,\n    Second,\n}\n"
    ),
    "crates/low/src/limits.rt": (
        "/// At most so many.\n///\n/// More words.\npub const MOST: u64 = 5;\n"
    ),
    "crates/low/specs/Numbers.antt": LOW_SPECS,
}


class Definitions(InFolder):
    def setUp(self) -> None:
        super().setUp()
        for name, text in FILES.items():
            (self.folder / name).parent.mkdir(parents=True, exist_ok=True)
            self.write(name, text)

    def test_what_the_contract_reaches_is_there_and_nothing_else(self) -> None:
        guide = read_guide(self.folder)
        self.assertEqual(
            {it.place.name for it in guide.definitions}, {"Good", "number", "twice", "Kind", "MOST"}
        )
        self.assertEqual(
            total_line(guide), "3 definitions of 7 lines in 2 files, and 2 types of 5 lines"
        )

    def test_what_the_law_of_c_programs_reaches_beyond_it_comes_after(self) -> None:
        guide = read_guide(self.folder)
        beyond = guide.of_programs
        assert beyond
        self.assertEqual([it.place.name for it in some(beyond.definitions)], ["Each"])
        self.assertEqual(guide.shared, 1)
        page = guide_page(guide)
        self.assertIn("It reaches 1 of the", page)
        place = "../crates/papi_c/specs/Histories.antt#L4"
        table = "| Definition | What it says | Lines |\n|---|---|---|\n"
        last = f"| [`Each`]({place}) | Each is twice itself | 2 |\n"
        self.assertTrue(page.endswith(f"### papi_c: Histories\n\n{table}{last}"))

    def test_the_marks_of_a_region_say_nothing_and_end_nothing(self) -> None:
        def said() -> list[tuple[str, str, int]]:
            return [
                (it.place.name, it.sentence, it.lines)
                for it in some(read_guide(self.folder).definitions)
            ]

        before = said()
        self.write(
            "crates/low/specs/Numbers.antt",
            LOW_SPECS.replace("-- the number", "-- tools/make_x: begin\n-- the number").replace(
                "number Second", "-- tools/make_x: end\nnumber Second"
            ),
        )
        self.write(
            "crates/low/src/kind.rt", "// tools/make_x: begin\n" + FILES["crates/low/src/kind.rt"]
        )
        self.assertEqual(said(), before)

    def test_a_variant_is_of_its_type_in_its_file(self) -> None:
        for module, name, of_type in (
            (
                "low.specs.declared.kind.Kind.TheVariants", "First",
                ("low.specs.declared.kind", "Kind"),
            ),
            (
                "low.specs.declared.limits.TheConstants", "MOST",
                ("low.specs.declared.limits", "MOST"),
            ),
            ("low.specs.declared.kind.Kind", "Kind", ("low.specs.declared.kind", "Kind")),
            (
                "low.specs.declared.a.b.Kind.TheVariants", "First",
                ("low.specs.declared.a.b", "Kind"),
            ),
        ):
            self.assertEqual(DefinitionsOf.type_of(Named(module, name)), Named(*of_type))

    def test_a_module_that_hands_a_name_on(self) -> None:
        before = {it.place for it in some(read_guide(self.folder).definitions)}
        self.write("crates/low/specs/Handing.antt", "use Rattle.low.specs.Numbers.{number}\n")
        self.write(
            "crates/papi_tools/specs/Top.antt",
            TOP_SPECS.replace("specs.Numbers as", "specs.Handing as"),
        )
        self.assertEqual({it.place for it in read_guide(self.folder).definitions}, before)

    def test_a_type_of_the_crate_s_first_file(self) -> None:
        self.write(
            "crates/low/src/lib.rt", "mod kind;\n\n/// At the top.\npub enum Root {\n    One,\n}\n"
        )
        self.write(
            "crates/papi_tools/specs/Top.antt",
            TOP_SPECS.replace("kind.Kind.{Kind}", "Root.{Root}").replace(
                "(k : Kind)", "(k : Root)"
            ),
        )
        self.assertIn("Root", {it.place.name for it in read_guide(self.folder).definitions})

    def test_what_a_crate_holds_keeps_its_capitals(self) -> None:
        self.assertIn("\nNumbers of PAPI. ", guide_page(read_guide(self.folder)))

    def test_a_use_may_take_several_lines(self) -> None:
        self.assertEqual(
            statements("use a.{b,\n  c,\n}\nx\nghost use d;\n"), ["use a.{b, c, }", "ghost use d;"]
        )

    def test_the_page_is_written_and_looked_at(self) -> None:
        """In a repository that has the tool. The README has the total too."""
        shutil.copytree(TOOLS, self.folder / "tools", ignore=shutil.ignore_patterns("tests"))
        shutil.copytree(TOOLS.parent / "bin/hints/formats", self.folder / "bin/hints/formats")
        total = total_line(read_guide(self.folder))

        def run(*words: str) -> tuple[int, str, str]:
            done = subprocess.run(
                [str(self.folder / "tools/make_definitions"), *words], capture_output=True,
                text=True,
            )
            return done.returncode, done.stdout, done.stderr

        def old(name: str) -> tuple[int, str, str]:
            return 1, "", f"make_definitions: {name} is out of date (tools/make_definitions)\n"

        stale = "All is 1,003 definitions of 10 lines in 12 files, and 1 types of 1,002 lines.\n"
        self.write("README.md", stale)
        self.assertEqual(run("--check"), old("docs/DEFINITIONS.md"))
        self.assertEqual(run(), (0, f"{total}\n", ""))
        self.assertEqual(
            (self.folder / "docs/DEFINITIONS.md").read_text(encoding="utf-8"),
            guide_page(read_guide(self.folder)),
        )
        self.assertEqual(
            (self.folder / "README.md").read_text(encoding="utf-8"), f"All is {total}.\n"
        )
        self.assertEqual(run("--check"), (0, "", ""))
        for name, text in (("README.md", stale), ("docs/DEFINITIONS.md", "old\n")):
            self.write(name, text)
            self.assertEqual(run("--check"), old(name))
            self.assertEqual((self.folder / name).read_text(encoding="utf-8"), text)
            self.assertEqual(run(), (0, f"{total}\n", ""))
        for text, times in (("nothing\n", "no"), (stale + stale, "2")):
            self.write("README.md", text)
            self.assertEqual(
                run(), (1, "", f"make_definitions: README.md has {times} totals like: {total}\n")
            )

    def test_a_row_has_the_sentence_the_place_and_the_lines(self) -> None:
        page = guide_page(read_guide(self.folder))
        self.assertIn("| [`Good`](../crates/papi_tools/specs/Top.antt#L8) | The number is that of "
                      "the kind | 2 |", page)
        self.assertIn(
            "| [`number`](../crates/low/specs/Numbers.antt#L5) | The number \\| of a kind | 3 |",
            page,
        )
        self.assertIn(
            "| [`twice`](../crates/low/specs/Numbers.antt#L11) | Twice a number | 2 |", page
        )
        self.assertIn("| [`MOST`](../crates/low/src/limits.rt#L4) | At most so many | 1 |", page)
        self.assertLess(page.index("## papi_tools"), page.index("## low"))

    def test_a_definition_without_a_sentence_is_refused(self) -> None:
        self.write(
            "crates/low/specs/Numbers.antt", LOW_SPECS.replace("-- twice\n-- a number\n", "")
        )
        with self.assertRaisesRegex(Fault, "Numbers.antt: twice has no sentence above it"):
            read_guide(self.folder)

    def test_a_contract_that_cites_nothing_is_refused(self) -> None:
        self.write("crates/papi_tools/src/top.rt", TOP.replace("Good k result", "result"))
        with self.assertRaisesRegex(Fault, "cites no definition"):
            read_guide(self.folder)

    def test_a_source_without_the_contract_is_told(self) -> None:
        for old, new, said in (
            ("fn papi_main", "fn other", "no function papi_main"),
            ("\n{\n", "\n", "no end of the contract of papi_main"),
        ):
            self.write("crates/papi_tools/src/top.rt", TOP.replace(old, new))
            with self.assertRaisesRegex(Fault, f"top.rt: {said}$"):
                read_guide(self.folder)
        (self.folder / "crates/papi_tools/src/top.rt").write_bytes(b"\xff")
        with self.assertRaisesRegex(Fault, "top.rt: not a text file$"):
            read_guide(self.folder)


if __name__ == "__main__":
    unittest.main()
