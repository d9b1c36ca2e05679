"""What is counted for the events of real processors: the tables of tools/processors, the codes that
follow from them, and the units that have these codes."""

from __future__ import annotations

import re
import unittest
from pathlib import Path

from description_words import RULES, fault
from parts.codes import codes_of
from parts.command import Fault
from parts.counted_page import counted_page
from parts.libpfm4 import Libpfm4
from parts.processors import FOLDER, NOTHING, Row, read_quantities, read_table, tables
from parts.unit_of_pmu import ARCHITECTURAL
from tests.support import ROOT, InFolder, needs_libpfm4, run_tool, some

QUANTITIES = "QUANTITY,one,\nQUANTITY,two,\nQUANTITY,three,\nSUM,both,one two\n"


class Tables(unittest.TestCase):
    def test_each_event_counts_its_quantities_and_no_others(self) -> None:
        """By the rule of docs/FORMATS.md: an event without umask bits counts all of its select
        code, and another one what shares a bit."""
        for pmu, table in some(tables().items()):
            lines = [
                (quantity, code) for quantity, codes in table.lines().items() for code in codes
            ]
            self.assertEqual(len({code for _, code in lines}), len(lines), pmu)
            for (event, umask), row in table.rows.items():
                select, mask = table.code(event, umask) or (0, 0)
                counted = [
                    quantity for quantity, (of, bit) in lines
                    if of == select and (not mask or mask & bit)
                ]
                self.assertEqual(
                    sorted(counted), sorted(set(row.quantities) - {NOTHING}), (pmu, event, umask)
                )

    @needs_libpfm4
    def test_each_row_is_an_event_of_libpfm4(self) -> None:
        library = Libpfm4()
        for pmu, table in some(tables().items()):
            events = {
                event.name.upper(): {umask.name.upper() for umask in event.umasks()}
                for event in library.events(library.pmu(pmu))
            }
            events |= {
                name: set() for name in ARCHITECTURAL
                if name not in events and not pmu.startswith("amd")
            }
            wrong = [
                row.name for (event, umask), row in table.rows.items()
                if event not in events or (umask not in events[event] if umask else events[event])
            ]
            self.assertEqual(wrong, [], pmu)

    def test_quantities_are_the_kinds_of_the_tool(self) -> None:
        """The tool has these with lines, and some more behind them."""
        text = (
            (ROOT / "tools/valgrind/kinds.c")
            .read_text(encoding="utf-8")
            .partition("kind_names[ALL_KINDS] = {")[2]
            .partition("};")[0]
        )
        names = [
            name for kind, name in re.findall(r'\[(\w+)\] = "(\w+)"', text)
            if kind.startswith("KL_") or kind == "LOAD_HITS"
        ]
        self.assertEqual(sorted(read_quantities().meanings), sorted(names))

    def test_some_rows(self) -> None:
        """By Intel's and AMD's manuals: a taken branch may be a jump, a call or a return; a third
        level is asked by what misses the second."""
        for pmu, event, umask, wanted in (
            ("skl", "BR_INST_RETIRED", "NEAR_TAKEN", "conditional_taken jumps calls returns"),
            ("skx", "L2_RQSTS", "ALL_DEMAND_DATA_RD", "l2_load_hits l2_load_misses"),
            ("icl", "FP_ARITH_INST_RETIRED", "4_FLOPS", "single_128 double_256"),
            ("hsw", "LLC_MISSES", "", "l3_load_misses l3_store_misses l3_fetch_misses"),
            ("snb", "SIMD_FP_256", "PACKED_DOUBLE", "double_256"),
            (
                "amd64_fam17h_zen2", "RETIRED_TAKEN_BRANCH_INSTRUCTIONS", "",
                "conditional_taken jumps calls returns",
            ),
            ("amd64_fam19h_zen4", "L1_DTLB_MISS", "TLB_RELOAD_1G_L2_MISS", NOTHING),
            ("clx", "MEM_INST_RETIRED", "LOCK_LOADS", "locked_loads"),
            ("bdw", "MEM_UOPS_RETIRED", "SPLIT_STORES", "split_stores"),
            (
                "amd64_fam17h_zen1", "RETIRED_SSE_AVX_OPERATIONS", "DP_MULT_ADD_FLOPS",
                "fused_doubles",
            ),
            (
                "amd64_fam19h_zen3", "RETIRED_SSE_AVX_FLOPS", "DIV_FLOPS",
                "divided_doubles divided_singles",
            ),
        ):
            self.assertEqual(
                tables()[pmu].rows[event, umask].quantities, tuple(wanted.split()), (pmu, event)
            )
        for pmu, event, umask in (
            ("skl", "MEM_LOAD_RETIRED", "FB_HIT"), ("skl", "L2_RQSTS", "PF_MISS"),
            ("amd64_fam17h_zen2", "RETIRED_LOCK_INSTRUCTIONS", "BUS_LOCK"),
        ):
            self.assertIsNone(tables()[pmu].code(event, umask), event)

    def test_the_documents_have_all(self) -> None:
        listed = (
            (ROOT / "docs/RECORDING.md")
            .read_text(encoding="utf-8")
            .partition("## Codes")[2]
            .partition("## The machine")[0]
        )
        named = {
            name for line in listed.splitlines() if line.startswith("- ")
            for name in re.findall(r"`(\w+)`", line)
        }
        self.assertEqual(named, set(tables()))
        page = counted_page()
        self.assertIn("| `L2_RQSTS:DEMAND_RFO_HIT`, `:RFO_HIT` | `l2_store_hits` |  |\n", page)
        self.assertEqual(
            sorted(re.findall(r"^## (.*)$", page, re.MULTILINE)[2:]),
            sorted({table.title for table in tables().values()}),
        )


class Files(InFolder):
    def table(self, rows: str) -> Path:
        self.write("quantities.csv", QUANTITIES)
        return Path(self.write("some.csv", "PMU,a b,The maker's\n" + rows))

    def test_codes(self) -> None:
        """A and B share a select code, for C there is no more room, and an event without umasks has
        one alone."""
        rows = "A:X,one,\nA:Y,both,it counts more, and less\nB:X,two three,\nC,one,\n"
        table = read_table(self.table(rows))
        self.assertEqual(
            (table.pmus, table.title, table.rows["A", "Y"].otherwise),
            (("a", "b"), "The maker's", "it counts more, and less"),
        )
        codes = [
            table.code(event, umask)
            for event, umask in (("A", "X"), ("a", "y"), ("B", "X"), ("C", ""), ("C", "0x1"))
        ]
        self.assertEqual(codes, [(2, 1), (2, 3), (2, 6), (1, 0), (1, 1)])
        self.assertEqual(
            [table.code("A", ""), table.code("A", "Z"), table.code("D", "")], [None, None, None]
        )
        self.assertEqual(
            table.lines(), {"one": [(1, 1), (2, 1)], "two": [(2, 2)], "three": [(2, 4)]}
        )

    def test_refusals(self) -> None:
        for rows, cause in (
            ("A:X,four,\n", "four: no quantity"), ("A:X,one,\na:x,two,\n", "a:x stands twice"),
            ("A:X\n", "A:X: a row is EVENT:UMASK,QUANTITIES"),
        ):
            with self.assertRaisesRegex(Fault, cause):
                read_table(self.table(rows))
        self.write("quantities.csv", "".join(f"QUANTITY,q{number},\n" for number in range(9)))
        with self.assertRaisesRegex(Fault, "A has 9 quantities, and a select code has 8 bits"):
            read_table(
                Path(
                    self.write(
                        "some.csv",
                        "PMU,a,b\n" + "".join(f"A:U{number},q{number},\n" for number in range(9)),
                    )
                )
            )


@needs_libpfm4
class Units(InFolder):
    def unit(self, pmu: str) -> str:
        done = run_tool("make_unit", pmu, "--counted")
        self.assertEqual((done.returncode, done.stderr), (0, ""))
        return self.write(f"{pmu}.unit", done.stdout)

    def test_a_unit_to_count_over(self) -> None:
        """Umasks of other select codes are in it too, and what has no row is named at its end."""
        unit = self.unit("icl")
        rows = Path(unit).read_text(encoding="utf-8").splitlines()
        self.assertTrue(rows[2].startswith("# counted: "))
        names = {tuple(row.split(",")[:2]) for row in rows}
        self.assertLessEqual(
            {
                ("EVENT", "INST_RETIRED"), ("UMASK", "ANY"), ("UMASK", "REF_TSC"),
                ("UMASK", "COND_NTAKEN"),
            },
            names,
        )
        self.assertFalse({("EVENT", "UOPS_ISSUED"), ("UMASK", "FB_HIT")} & names)
        left_out = " ".join(row[4:] for row in rows if row.startswith("#   ")).split()
        self.assertIn("MEM_LOAD_RETIRED:FB_HIT", left_out)
        select, mask = tables()["icl"].code("L2_RQSTS", "CODE_RD_MISS") or (0, 0)
        place = next(
            number for number, row in enumerate(rows)
            if row.startswith(f"EVENT,L2_RQSTS,{select:02x},")
        )
        self.assertTrue(
            any(
                row.startswith(f"UMASK,CODE_RD_MISS,{mask:02x},")
                for row in rows[place : place + 17]
            )
        )

    def test_each_processor_s_unit_has_the_codes_of_its_table(self) -> None:
        for pmu in ("skl", "spr", "amd64_fam17h_zen1"):
            self.assertEqual(
                dict(codes_of(self.unit(pmu)).lines),
                {quantity: tuple(codes) for quantity, codes in tables()[pmu].lines().items()},
            )

    def test_codes_of_more_than_eight_bits(self) -> None:
        """AMD has some. A unit with codes of its own has these events too, and one with the
        processor's has not."""
        rows = Path(self.unit("amd64_fam19h_zen3")).read_text(encoding="utf-8")
        for row in (
            "EVENT,RETIRED_BRANCH_MISPREDICTED_DIRECTION_MISMATCH,", "EVENT,IC_TAG_HIT_MISS,",
        ):
            self.assertIn(row, rows)
            self.assertNotIn(row, run_tool("make_unit", "amd64_fam19h_zen3").stdout)

    def test_a_processor_without_a_table(self) -> None:
        done = run_tool("make_unit", "nhm", "--counted")
        self.assertEqual((done.stdout, done.returncode), ("", 1))
        self.assertIn("there is no table of what is counted for the events of nhm; there are "
                      "tables for amd64_fam17h_zen1", done.stderr)


class Descriptions(unittest.TestCase):
    def test_what_a_description_says(self) -> None:
        """By texts of Linux's event files. One of several that is right suffices."""
        clean = "Instruction cache hit clean line in L2."
        for words, texts, wrong in (
            ("l2_fetch_hits", [clean], ""),
            ("l2_fetch_misses", [clean], "has nothing like"),
            ("l2_load_hits", [clean], "has nothing like"),
            ("l2_load_hits", ["Demand Data Read miss L2, no rejects"], "has miss"),
            (
                "l3_load_misses",
                ["unknown information", "retired demand loads that missed the L3 cache"], "",
            ),
            (
                "mispredicted", ["Not taken branch instructions retired."],
                "has nothing like mispred",
            ),
            ("loads jumps", [clean], "no words are written for"),
        ):
            found = fault(Row("E:U", words, (), ""), texts)
            self.assertTrue(found == "" if not wrong else wrong in found, (words, found))

    def test_each_sum_has_its_words(self) -> None:
        words = {row.words for table in tables().values() for row in table.rows.values()}
        self.assertEqual(sorted(words - RULES.keys()), [])


class Folder(unittest.TestCase):
    def test_each_file_is_a_table(self) -> None:
        self.assertEqual(
            len({id(table) for table in tables().values()}), len(list(FOLDER.glob("*.csv"))) - 1
        )
