"""tools/make_unit: the rows of real processors, the counters of event files and of the kernel's
tables, and its refusals."""

from __future__ import annotations

import subprocess
import unittest
from pathlib import Path
from typing import Any, Iterator, cast

from parts import unit_file
from parts.command import Fault
from parts.event_counters import EventCounters
from parts.left_out import Account
from parts.libpfm4 import Event, Libpfm4, Pmu
from parts.linux_source import (
    PROCESSORS, Constraint, ConstraintTable, Processor, Registers, find_sources,
)
from parts.perf_events import Places, read_event_files
from parts.preset_umasks import read_umasks
from parts.shared_registers import Need, keep
from parts.unit_of_pmu import ALWAYS, Converter
from tests.support import (
    ROOT, TOOLS, InFolder, needs_libpfm4, needs_program, run_program, run_tool, some,
)

SAMPLE = str(TOOLS / "tests/sample.events.json")


def places(programmable: set[int], fixed: set[int]) -> Places:
    return Places(frozenset(programmable), frozenset(fixed))


class WideCodes:
    """What stands for libpfm4: of two events one has a code that goes on where a umask has its
    bits."""

    def events(self, pmu: Pmu) -> Iterator[Event]:
        return (Event(name, "An event", ()) for name in ("PLAIN", "WIDE"))

    def encode(self, name: str) -> tuple[int, ...]:
        codes = {"p::PLAIN": 0xC0, "p::WIDE": 0x1C0, "p::WIDE:0x01": 0x2C0}
        return (ALWAYS | codes[name],)


class WideCode(unittest.TestCase):
    def test_a_wide_code_is_left_out(self) -> None:
        converter = Converter(cast(Any, WideCodes()), Pmu("p", "A pmu", "other", 2, 4, 0, 0))
        self.assertEqual([event.name for event in converter.unit().events], ["PLAIN"])
        self.assertEqual(
            converter.account.names, {"WIDE": "the code has more than 8 bits and no umask"}
        )


class Names:
    """What stands for libpfm4: two events, of which one has no name of a unit file."""

    def events(self, pmu: Pmu) -> Iterator[Event]:
        return (Event(name, "An event", ()) for name in ("PLAIN", "WITH,COMMA"))

    def encode(self, name: str) -> tuple[int, ...]:
        return (ALWAYS | 0xC0,)


class EventNames(unittest.TestCase):
    def test_a_name_that_a_unit_file_cannot_say(self) -> None:
        converter = Converter(cast(Any, Names()), Pmu("p", "A pmu", "other", 2, 4, 0, 0))
        self.assertEqual([event.name for event in converter.unit().events], ["PLAIN"])
        self.assertEqual(
            converter.account.names, {"WITH,COMMA": "the name is not one of a unit file"}
        )

    def test_the_architecture_s_events_are_of_intel_s_cores(self) -> None:
        for description, kind, more in (
            ("Intel Some", "core", True), ("AMD64 Some", "core", False),
            ("Intel Some Uncore", "uncore", False),
        ):
            converter = Converter(cast(Any, Names()), Pmu("p", description, kind, 2, 4, 0, 0))
            self.assertEqual(len(list(converter.source_events())) > 2, more, description)


class UnitFile(unittest.TestCase):
    def test_a_umask_has_no_name_of_a_modifier(self) -> None:
        self.assertEqual(
            [
                name for name in ("u", "K", "e", "I", "c", "d", "uk", "a b")
                if unit_file.is_umask_name(name)
            ],
            ["d", "uk"],
        )

    def test_rows(self) -> None:
        umask = unit_file.Umask("ALL", 1, True, True, "All, of any kind")
        event = unit_file.Event("BR_INST", 0xC4, ("P0", "F0"), "Branches", (umask,))
        unit = unit_file.Unit("cpu", "lab", 16, 1, frozenset({0}), (event,))
        self.assertEqual(unit.rows(), [
            "COMPONENT,cpu,lab", "COUNTER,F0,16,F", "COUNTER,P0,16,P",
            "EVENT,BR_INST,c4,P0 F0,Branches", "UMASK,ALL,01,dn,All; of any kind",
        ])

    def test_rows_of_a_umask(self) -> None:
        for counters, fixed, rows in (
            (("P0", "P1"), unit_file.NOTHING_FIXED, ["UMASK_COUNTERS,P0 P1"]),
            ((), unit_file.Fixed(True, True, 10), ["UMASK_MODIFIERS,ei,10"]),
            (("F0",), unit_file.Fixed(amount=2), ["UMASK_COUNTERS,F0", "UMASK_MODIFIERS,-,2"]),
        ):
            umask = unit_file.Umask("ALL", 1, False, False, "", counters, fixed)
            self.assertEqual(umask.rows(), ["UMASK,ALL,01,-,"] + rows)

    def test_description_is_one_line_of_200_characters(self) -> None:
        self.assertEqual(unit_file.plain("  two\n lines,\tµ "), "two lines; ?")
        self.assertEqual(unit_file.plain("a\x01b~\x7f"), "a?b~?")
        self.assertEqual(len(unit_file.plain("x" * 300)), 200)

    def test_names(self) -> None:
        for name, good in (
            ("A_b-9", True), ("", False), ("A.B", False), ("x" * 64, True), ("x" * 65, False),
        ):
            self.assertEqual(unit_file.is_name(name), good, name)
        self.assertFalse(unit_file.is_umask_name("E"))


class PresetUmasks(InFolder):
    def test_umasks_that_a_preset_file_names(self) -> None:
        name = self.write(
            "presets",
            "CPU,skl\nPRESET,PAPI_CA_SNP,NOT_DERIVED,skl::Offcore_0:SNP_ANY:u, "
            "L2:RFO_HIT,NOTE,'a:b'\n#PRESET,PAPI_L1_DCM,NOT_DERIVED,L1D:MISS\n"
            "EVENT,FP,DERIVED_POSTFIX,N0|N1|+|,FP:SCALAR,FP:WIDE\nPRESETS,A,B,C:D\n",
        )
        wanted = {("OFFCORE_0", "SNP_ANY"), ("L2", "RFO_HIT"), ("FP", "SCALAR"), ("FP", "WIDE")}
        self.assertLessEqual(wanted, read_umasks(name))
        self.assertFalse({("L1D", "MISS"), ("C", "D")} & read_umasks(name))

    def test_a_file_that_is_not_there(self) -> None:
        with self.assertRaisesRegex(Fault, "No such file"):
            read_umasks(str(self.folder / "absent"))


class EventFiles(InFolder):
    def test_places(self) -> None:
        table = read_event_files([SAMPLE])
        self.assertEqual(table.places((0xC0, 0x00)), places({0, 1, 2, 3}, set()))
        self.assertEqual(table.places((0xC0, 0x01)), places({1}, set()))
        self.assertEqual(
            table.places((0xC0, 0x01), unit_file.Fixed(invert=True, amount=10)),
            places({0, 2, 3}, set()),
        )
        self.assertEqual(table.places((0xC0, 0x01), unit_file.Fixed(amount=1)), places({1}, set()))
        self.assertEqual(table.places((0x00, 0x01)), places(set(), {0}))
        self.assertEqual(table.places((0x48, 0x01)), places({2}, set()))
        self.assertIsNone(table.places((0xFF, 0x00)))
        self.assertEqual(table.programmable(), 4)

    def test_counters_without_hyperthreading(self) -> None:
        entry = (
            '[{"EventName": "A", "EventCode": "0x1", "Counter": "0,1,2,3", "CounterHTOff": '
            '"0,1,2,3,4,5,6,7"}]'
        )
        name = self.write("events.json", entry)
        self.assertEqual(
            [read_event_files([name], threads).programmable() for threads in (True, False)], [4, 8]
        )

    def test_texts_of_metrics_are_passed_over(self) -> None:
        texts = self.write("metricgroups.json", '{"Backend": "Grouping of metrics"}')
        self.assertEqual(read_event_files([texts, SAMPLE]).programmable(), 4)
        with self.assertRaisesRegex(Fault, "no event of the core has its counters there"):
            read_event_files([texts])

    def test_refusals(self) -> None:
        cases = (
            ("[", "line 1: not JSON"),
            ('{"EventName": 1}', "not a list of events"),
            ("[1]", "not a list of events"),
            (
                '[{"EventName": "A", "Counter": "x", "EventCode": "0x1"}]',
                "A: EventCode, UMask, Counter or a modifier",
            ),
            (
                '[{"EventName": "A", "Counter": "0", "EventCode": "0x1", "CounterMask": "x"}]',
                "A: EventCode, UMask, Counter or a modifier",
            ),
            ("[]", "a list without an event"),
            ("{}", "not a list of events"),
            ("[{}]", "event 1: it has no key"),
        )
        for text, cause in cases:
            with self.assertRaisesRegex(Fault, cause):
                read_event_files([self.write("events.json", text)])
        with self.assertRaisesRegex(Fault, "No such file"):
            read_event_files([str(self.folder / "absent.json")])


TABLE = """
static struct event_constraint intel_skl_event_constraints[] = {
	FIXED_EVENT_CONSTRAINT(0x00c0, 0),	/* INST_RETIRED.ANY */
	FIXED_EVENT_CONSTRAINT(0x0300, 2),
	METRIC_EVENT_CONSTRAINT(INTEL_TD_METRIC_RETIRING, 0),
	INTEL_UEVENT_CONSTRAINT(0x1c0, 0x2),
	/* INTEL_EVENT_CONSTRAINT(0xd1, 0x1), */
	INTEL_EVENT_CONSTRAINT_RANGE(0xd0, 0xd2, 0xf),
	INTEL_EVENT_CONSTRAINT(0xcd, 0x8),
	EVENT_CONSTRAINT_END
};
"""

REGISTER_TABLE = """
static struct extra_reg intel_skl_extra_regs[] __read_mostly = {
	INTEL_UEVENT_EXTRA_REG(0x01b7, MSR_OFFCORE_RSP_0, 0x3fffff8fffull, RSP_0),
	INTEL_UEVENT_EXTRA_REG(0x01bb, MSR_OFFCORE_RSP_1, 0x3fffff8fffull, RSP_1),
	INTEL_UEVENT_PEBS_LDLAT_EXTRA_REG(0x01cd),
	/*
	 * INTEL_UEVENT_EXTRA_REG(0x01c7, MSR_PEBS_FRONTEND, 0x7fff17, FE),
	 */
	INTEL_UEVENT_EXTRA_REG(0x01c6, MSR_PEBS_FRONTEND, 0x7fff17, FE),
	EVENT_EXTRA_END
};
"""
# Of amd/core.c.
PAIRS = """
static inline bool amd_is_pair_event_code(struct hw_perf_event *hwc)
{
	switch (amd_get_event_code(hwc)) {
	case 0x003:	return true;	/* Retired SSE/AVX FLOPs */
	default:	return false;
	}
}
	case 0x004:	return true;
"""


# Of Linux, in tools/perf/pmu-events/arch/x86.
FOLDERS = ("amdzen1 amdzen2 amdzen3 bonnell broadwell broadwellx cascadelakex elkhartlake goldmont "
           "haswell haswellx icelake icelakex ivybridge ivytown jaketown knightslanding "
           "knightslanding nehalemep nehalemex sandybridge sapphirerapids silvermont skylake "
           "skylakex "
           "westmereep-dp westmereep-sp").split()
# Of arch/x86/events/intel/core.c.
TABLES = "bdw core2 gen hsw icl ivb nehalem skl slm snb spr westmere".split()


class Processors(unittest.TestCase):
    @needs_libpfm4
    def test_each_is_one_of_libpfm4(self) -> None:
        known = {pmu.name for pmu in Libpfm4().pmus()}
        self.assertEqual(some(name for name in PROCESSORS if name in known), list(PROCESSORS))

    def test_where_linux_has_each(self) -> None:
        self.assertEqual(
            sorted(each.folder for each in PROCESSORS.values() if each.folder), FOLDERS
        )
        self.assertEqual(
            sorted({each.table for each in PROCESSORS.values() if each.table}),
            [f"intel_{name}_event_constraints" for name in TABLES],
        )
        for pmu, folder, table, registers in (
            ("skx", "skylakex", "skl", "skl"), ("wsm_dp", "westmereep-dp", "westmere", "westmere"),
            ("ivb", "ivybridge", "ivb", "snb"), ("ivb_ep", "ivytown", "ivb", "snbep"),
            ("icx", "icelakex", "icl", "icl"), ("hsw", "haswell", "hsw", "snbep"),
            ("tmt", "elkhartlake", "slm", "tnt"),
        ):
            self.assertEqual(
                PROCESSORS[pmu],
                Processor(
                    folder, f"intel_{table}_event_constraints", f"intel_{registers}_extra_regs"
                ),
            )
        self.assertEqual(PROCESSORS["amd64_fam17h_zen2"], Processor("amdzen2"))
        for pmu, none in (
            ("core", Processor(None, "intel_core2_event_constraints")),
            ("amd64_fam19h_zen4", Processor(None)),
        ):
            self.assertEqual(PROCESSORS[pmu], none)


class KernelSource(InFolder):
    """The macros are those of Linux, arch/x86/events/perf_event.h."""

    def source(self, table: str, registers: str = REGISTER_TABLE) -> str:
        for name, text in (
            ("arch/x86/events/intel/core.c", table + registers),
            ("tools/perf/pmu-events/arch/x86/skylake/all.json", Path(SAMPLE).read_text()),
        ):
            path = self.folder / "linux" / name
            path.parent.mkdir(parents=True, exist_ok=True)
            path.write_text(text)
        return str(self.folder / "linux")


class KernelTables(KernelSource):
    def test_places(self) -> None:
        table = find_sources(self.source(TABLE), "skl").constraints
        assert table is not None
        nothing = unit_file.NOTHING_FIXED
        for code, modifiers, wanted in (
            ((0xC0, 0x00), nothing, places(set(range(8)), {0})),
            ((0xC0, 0x00), unit_file.Fixed(edge=True, amount=1), None),
            ((0xC0, 0x01), nothing, places({1}, set())),
            ((0xC0, 0x01), unit_file.Fixed(amount=1), places({1}, set())),
            ((0x00, 0x03), nothing, places(set(), {2})),
            ((0xD1, 0x08), nothing, places({0, 1, 2, 3}, set())),
            ((0xD3, 0x08), nothing, None),
            ((0xCD, 0x01), nothing, places({3}, set())),
        ):
            self.assertEqual(table.places(code, modifiers, 8), wanted, code)

    def test_a_bit_of_a_umask(self) -> None:
        """The row holds where the umask has the bit, whatever its other bits are."""
        row = "INTEL_UBIT_EVENT_CONSTRAINT(0x8a3, 0x4)"
        text = TABLE.replace("INTEL_UEVENT_CONSTRAINT(0x1c0, 0x2)", row)
        table = find_sources(self.source(text), "skl").constraints
        assert table is not None
        for umask, wanted in (
            (0x08, {2}), (0x0C, {2}), (0xFF, {2}), (0x00, None), (0x04, None), (0xF7, None),
        ):
            found = table.places((0xA3, umask), unit_file.NOTHING_FIXED, 8)
            self.assertEqual(found, places(wanted, set()) if wanted else None, umask)
        self.assertIsNone(table.places((0xA7, 0x08), unit_file.NOTHING_FIXED, 8))

    def test_files_that_name_no_counter_of_the_table(self) -> None:
        """The sample names the counters 0, 2 and 3 for a code that the table puts on counter 1:
        Linux goes by its table."""
        sources = find_sources(self.source(TABLE), "skl")
        total = unit_file.Fixed(invert=True, amount=10)
        for constraints, wanted in ((None, {0, 2, 3}), (sources.constraints, {1})):
            self.assertEqual(
                EventCounters(4, 3, read_event_files(sources.events), constraints).places(
                    (0xC0, 0x01), total
                ),
                places(wanted, set()),
            )

    def test_modifiers_stand_where_the_register_has_them(self) -> None:
        """Intel's event select registers: the edge at bit 18, invert at 23, and the least amount
        from 24 on."""
        for bit, modifiers in (
            (18, unit_file.Fixed(edge=True)), (23, unit_file.Fixed(invert=True, amount=0)),
            (24, unit_file.Fixed(amount=1)),
        ):
            table = ConstraintTable([Constraint(0xC0 | 1 << bit, 0, 0xFF | 1 << bit, 0b10)])
            self.assertEqual(
                [
                    table.places((0xC0, 0x00), given, 4)
                    for given in (modifiers, unit_file.NOTHING_FIXED)
                ],
                [places({1}, set()), None],
                bit,
            )

    def amd(self) -> str:
        for name, text in (
            (
                "tools/perf/pmu-events/arch/x86/amdzen2/core.json",
                '[{"EventName": "ex_ret_instr", "EventCode": "0xc0"}]',
            ),
            ("arch/x86/events/amd/core.c", PAIRS),
        ):
            path = self.folder / "linux" / name
            path.parent.mkdir(parents=True, exist_ok=True)
            path.write_text(text)
        return str(self.folder / "linux")

    def test_a_processor_whose_files_name_no_counters(self) -> None:
        self.assertEqual(find_sources(self.amd(), "amd64_fam17h_zen2").events, [])

    def test_events_of_two_counters(self) -> None:
        self.assertEqual(find_sources(self.amd(), "amd64_fam17h_zen2").pairs, {3})
        (self.folder / "linux/arch/x86/events/amd/core.c").write_text(PAIRS.replace("amd_is", "is"))
        with self.assertRaisesRegex(Fault, "no amd_is_pair_event_code"):
            find_sources(str(self.folder / "linux"), "amd64_fam17h_zen2")

    def test_registers_that_events_share(self) -> None:
        """Either offcore register serves the events of both, and the others are one each."""
        registers = find_sources(self.source(TABLE), "skl").registers
        self.assertEqual(
            [(sorted(each.codes), each.count) for each in registers],
            [([0x1B7, 0x1BB], 2), ([0x1CD], 1), ([0x1C6], 1)],
        )

    def test_events_that_exclude_the_other_thread(self) -> None:
        excluding = TABLE.replace("INTEL_EVENT_CONSTRAINT(0xcd", "INTEL_EXCLEVT_CONSTRAINT(0xcd")
        for table, is_so in ((TABLE, False), (excluding, True)):
            constraints = find_sources(self.source(table), "skl").constraints
            assert constraints is not None
            nothing = unit_file.NOTHING_FIXED
            self.assertEqual(
                [constraints.is_exclusive(code, nothing) for code in ((0xCD, 0x01), (0xC0, 0x01))],
                [is_so, False],
            )
            self.assertEqual(constraints.places((0xCD, 0x01), nothing, 4), places({3}, set()))

    def test_fixed_counters_are_the_kernel_s(self) -> None:
        sources = find_sources(self.source(TABLE), "skl")
        files = read_event_files(sources.events)
        nothing = unit_file.NOTHING_FIXED
        for constraints, fixed in ((None, {0}), (sources.constraints, set())):
            counters = EventCounters(4, 3, files, constraints)
            self.assertEqual(counters.places((0x00, 0x01), nothing), places(set(), fixed))

    def test_refusals(self) -> None:
        for table, cause in (
            ("", "no table intel_skl_event_constraints"),
            (TABLE.replace("0x1c0, 0x2", "0x1c0"), "a row that make_unit does not know"),
            (
                TABLE.replace("INTEL_UEVENT", "INTEL_OTHER"),
                r"INTEL_OTHER_CONSTRAINT\(0x1c0, 0x2\): a row that",
            ),
        ):
            with self.assertRaisesRegex(Fault, cause):
                find_sources(self.source(table), "skl")
        with self.assertRaisesRegex(Fault, "not known where Linux has ix86arch"):
            find_sources(self.source(TABLE), "ix86arch")
        with self.assertRaisesRegex(Fault, "no event files"):
            find_sources(str(self.folder / "absent"), "skl")


class SharedRegisters(KernelSource):
    def test_values_that_linux_takes(self) -> None:
        """Those within the bits of the register's row."""
        offcore, loads, frontend = find_sources(self.source(TABLE), "skl").registers
        for group, code, value, is_taken in (
            (offcore, 0x1B7, 0x3FFFFF8FFF, True), (offcore, 0x1BB, 0x4000000000, False),
            (frontend, 0x1C6, 0x8, False), (offcore, 0x1C6, 0x8, True), (loads, 0x1CD, 0x8, True),
        ):
            self.assertEqual(group.takes(code, value), is_taken, (code, value))

    def test_a_name_whose_value_linux_refuses(self) -> None:
        """OFFCORE_RESPONSE_0:L3_MISS of a Skylake has bits from 26 on."""
        few = TABLE, REGISTER_TABLE.replace("0x3fffff8fffull, RSP_0", "0x0000008fffull, RSP_0")
        for table, registers, is_refused in ((*few, True), (TABLE, REGISTER_TABLE, False)):
            done = run_tool(
                "make_unit", "skl", "--linux", self.source(table, registers), "--left-out"
            )
            self.assertEqual(
                "OFFCORE_RESPONSE_0:L3_MISS: Linux refuses the value of its register\n"
                in done.stdout,
                is_refused,
                done.stderr,
            )

    def test_as_many_counters_as_registers_where_others_need_them_least(self) -> None:
        group = Registers(frozenset({0x1B7, 0x1BB}), 2)
        everywhere = places({0, 1, 2, 3}, set())
        own = [Need(0x1B7, value, everywhere) for value in (1, 2, 3)]
        others = [Need(0x1C0, None, places({0}, set())), Need(0x148, None, places({2, 3}, set()))]
        self.assertEqual([each.counters for each in keep([group], own + others, 4)], [{1, 2}])
        self.assertEqual(
            [
                each.counters
                for each in keep([group], [Need(0x1B7, 1, places({0, 3}, set())), *own], 4)
            ],
            [{0, 3}],
        )
        for few in ([], own[:2], [Need(0x1B7, 1, everywhere)] * 3):
            self.assertEqual(keep([group], few + others, 4), (), few)


@needs_libpfm4
class RealProcessors(InFolder):
    """Codes and counters of Intel's manual, volume 3, architectural performance events."""

    def rows(self, *words: str) -> list[str]:
        done = run_tool("make_unit", *words)
        self.assertEqual((done.returncode, done.stderr), (0, ""))
        return done.stdout.splitlines()

    def row(self, rows: list[str], start: str) -> str:
        found = [row for row in rows if row.startswith(start + ",")]
        self.assertEqual(len(found), 1, start)
        return found[0]

    def test_without_event_files(self) -> None:
        rows = self.rows("skl")
        self.assertEqual(
            rows[2:7],
            [
                "COMPONENT,cpu,skl", "COUNTER,F0,48,F", "COUNTER,F1,48,F", "COUNTER,F2,48,F",
                "COUNTER,P0,48,P",
            ],
        )
        self.assertRegex(
            rows[1],
            r"^# assumed: an event may stand on each programmable counter, .* all 8 .*--counters 4",
        )
        everywhere = "P0 P1 P2 P3 P4 P5 P6 P7"
        self.assertTrue(
            self.row(rows, "EVENT,INSTRUCTION_RETIRED").startswith(
                f"EVENT,INSTRUCTION_RETIRED,c0,{everywhere} F0,"
            )
        )
        self.assertTrue(
            self.row(rows, "EVENT,UNHALTED_CORE_CYCLES").startswith(
                f"EVENT,UNHALTED_CORE_CYCLES,3c,{everywhere} F1,"
            )
        )
        reference = rows.index(self.row(rows, "EVENT,UNHALTED_REFERENCE_CYCLES"))
        self.assertTrue(rows[reference].startswith("EVENT,UNHALTED_REFERENCE_CYCLES,00,F2,"))
        self.assertTrue(rows[reference + 1].startswith("UMASK,0x03,03,dn,"))
        stalls = rows.index(self.row(rows, "UMASK,STALLS_TOTAL"))
        self.assertEqual(rows[stalls : stalls + 2][1], "UMASK_MODIFIERS,-,4")
        misses = rows.index(self.row(rows, "EVENT,LLC_MISSES"))
        self.assertTrue(rows[misses].startswith(f"EVENT,LLC_MISSES,2e,{everywhere},"))
        self.assertTrue(rows[misses + 1].startswith("UMASK,0x41,41,dn,"))

    def test_names_that_are_left_out(self) -> None:
        rows = self.rows("skl")
        told = dict(line.split(": ", 1) for line in self.rows("skl", "--left-out"))
        self.assertEqual(
            told["CPU_CLK_THREAD_UNHALTED:REF_XCLK_ANY"],
            "the code counts for any thread of a core, and a stream is one thread's own",
        )
        listed = {name for row in rows if row.startswith("#   ") for name in row[4:].split()}
        self.assertLessEqual(told.keys(), listed)
        halves = [row for row in rows if row.startswith("# taken without its second register: ")]
        self.assertEqual(len(halves), 1)
        self.assertIn("FRONTEND_RETIRED:DSB_MISS", listed - told.keys())
        self.assertEqual(
            listed & {"BR_INST_RETIRED:CONDITIONAL", "BRANCH_INSTRUCTIONS_RETIRED"}, set()
        )

    def test_umasks_that_stay_for_a_preset_file(self) -> None:
        presets = self.write(
            "presets",
            (
                "CPU,skl\nPRESET,PAPI_CA_SNP,NOT_DERIVED,OFFCORE_RESPONSE_0:SNP_ANY\n"
                "PRESET,PAPI_L2_TCW,NOT_DERIVED,L2_RQSTS:rfo_hit\n"
            ),
        )
        names = "OFFCORE_RESPONSE_0:SNP_ANY", "L2_RQSTS:RFO_HIT"
        for words, reason in (((), "more than 16 umasks"), (("--presets", presets), None)):
            told = dict(line.split(": ", 1) for line in self.rows("skl", "--left-out", *words))
            self.assertEqual([told.get(name) for name in names], [reason, reason], words)
        rows = self.rows("skl", "--presets", presets)
        start = rows.index(self.row(rows, "EVENT,OFFCORE_RESPONSE_0")) + 1
        umasks = [
            row.split(",")[1] for row in rows[start:] if row.startswith(("UMASK,", "EVENT,"))
        ][:17]
        self.assertIn("SNP_ANY", umasks[:16])
        self.assertEqual(umasks[16], "OFFCORE_RESPONSE_1")

    def test_an_edge_is_part_of_a_umask(self) -> None:
        rows = self.rows("skl")
        place = rows.index(self.row(rows, "UMASK,MS_SWITCHES"))
        self.assertEqual(
            (rows[place].split(",")[2], rows[place + 1]), ("30", "UMASK_MODIFIERS,e,1")
        )

    def test_umasks_that_may_stand_together(self) -> None:
        """None of an event of which libpfm4 combines no two, and each of one of which it combines
        all."""
        rows = self.rows("skl")
        for name, flags in (("HLE_RETIRED", "n" * 8), ("L2_LINES_IN", "-" * 2)):
            after = rows[rows.index(self.row(rows, f"EVENT,{name}")) + 1 :]
            umasks = [
                row.split(",")[3].replace("d", "") or "-"
                for row in after[: [row.startswith("EVENT,") for row in after].index(True)]
                if row.startswith("UMASK,")
            ]
            self.assertEqual("".join(umasks), flags, name)

    def test_with_event_files(self) -> None:
        rows = self.rows("skl", "--width", "16", "--events", SAMPLE)
        self.assertRegex(
            rows[[row.startswith("# counters: ") for row in rows].index(True)],
            r"^# counters: 10 of [0-9]{3} codes have theirs in the event files$",
        )
        self.assertEqual(
            [row for row in rows if row.startswith("COUNTER")][2:4],
            ["COUNTER,F2,16,F", "COUNTER,P0,16,P"],
        )
        self.assertNotIn("hyperthreading", rows[1])  # the files say which counters there are
        self.assertTrue(
            self.row(rows, "EVENT,INST_RETIRED").startswith("EVENT,INST_RETIRED,c0,P0 P1 P2 P3 F0,")
        )
        self.assertTrue(
            self.row(rows, "EVENT,L1D_PEND_MISS").startswith("EVENT,L1D_PEND_MISS,48,P0 P1 P2 P3,")
        )
        instructions = rows[rows.index(self.row(rows, "EVENT,INST_RETIRED")) :]
        total = next(
            number for number, row in enumerate(instructions)
            if row.startswith("UMASK,TOTAL_CYCLES,")
        )
        self.assertEqual(
            instructions[total + 1 : total + 3], ["UMASK_COUNTERS,P0 P2 P3", "UMASK_MODIFIERS,i,10"]
        )
        for umask, more in (
            ("PENDING", ["UMASK_COUNTERS,P2"]), ("PREC_DIST", ["UMASK_COUNTERS,P1"]),
        ):
            place = rows.index(self.row(rows, f"UMASK,{umask}")) + 1
            self.assertEqual(rows[place : place + len(more)], more)

    def test_with_a_kernel_s_table(self) -> None:
        linux = KernelTables.source(self, TABLE)
        rows = self.rows("skl", "--linux", linux)
        self.assertIn("on the counters that the kernel's table allows; all 4 programmable", rows[1])
        self.assertTrue(
            self.row(rows, "EVENT,INST_RETIRED").startswith("EVENT,INST_RETIRED,c0,P0 P1 P2 P3 F0,")
        )
        self.assertTrue(
            self.row(rows, "EVENT,MEM_TRANS_RETIRED").startswith("EVENT,MEM_TRANS_RETIRED,cd,P3,")
        )
        self.assertIn("UMASK_COUNTERS,P1", rows[rows.index(self.row(rows, "UMASK,PREC_DIST")) + 1])

    def test_linux_goes_by_its_table_and_documents_by_more(self) -> None:
        """The sample puts L1D_PEND_MISS:PENDING on counter 2, of which the table says nothing."""
        linux = KernelTables.source(self, TABLE)
        for words, more, said in (
            ((), [], "kernel's table allows"),
            (
                ("--documents",), ["UMASK_COUNTERS,P2"],
                "the kernel's table and the event files allow",
            ),
        ):
            rows = self.rows("skl", "--linux", linux, *words)
            self.assertIn(said, rows[1])
            place = rows.index(self.row(rows, "UMASK,PENDING")) + 1
            self.assertEqual(
                [row for row in rows[place : place + 1] if row.startswith("UMASK_COUNTERS")], more
            )

    def test_events_that_share_registers(self) -> None:
        """Two registers of 44 values, and one of 10: as many counters. Three names of INST_RETIRED
        need counter 1 by the table, and the two of MEM_TRANS_RETIRED 3."""
        rows = self.rows("skl", "--linux", KernelTables.source(self, TABLE))
        self.assertEqual(
            [self.row(rows, f"EVENT,OFFCORE_RESPONSE_{number}").split(",")[3] for number in (0, 1)],
            ["P0 P2", "P0 P2"],
        )
        self.assertEqual(self.row(rows, "EVENT,FRONTEND_RETIRED").split(",")[3], "P3")
        kept = [row for row in rows if row.startswith("# kept to ")]
        self.assertEqual(
            [row.partition(",")[0] for row in kept],
            [
                "# kept to P3: 10 names of FRONTEND_RETIRED",
                "# kept to P0 P2: 52 names of OFFCORE_RESPONSE_0 and OFFCORE_RESPONSE_1",
            ],
        )

    def test_what_a_unit_cannot_say(self) -> None:
        excluding = KernelTables.source(
            self, TABLE.replace("INTEL_EVENT_CONSTRAINT(0xcd", "INTEL_EXCLEVT_CONSTRAINT(0xcd")
        )
        said = (
            "MEM_TRANS_RETIRED Linux lets a thread of a core with hyperthreading count on 2 of its "
            "4 programmable counters"
        )
        for words, is_said in (((), True), (("--no-hyperthreading",), False)):
            done = run_tool("make_unit", "skl", "--linux", excluding, *words)
            self.assertEqual(done.returncode, 0)
            head = " ".join(line[1:].strip() for line in done.stdout.splitlines()[:8])
            self.assertEqual(
                [said in text for text in (head, done.stderr)], [is_said, is_said], words
            )
        done = run_tool("make_unit", "amd64_fam17h_zen2", "--linux", KernelTables.amd(self))
        self.assertIn("make_unit: amd64_fam17h_zen2: each of 5 names of RETIRED_SSE_AVX_FLOPS "
                      "takes two counters", done.stderr)
        self.assertIn("# not said: each of 5 names of RETIRED_SSE_AVX_FLOPS", done.stdout)
        self.assertEqual(
            self.row(done.stdout.splitlines(), "EVENT,RETIRED_SSE_AVX_FLOPS").split(",")[3],
            "P0 P2 P4",
        )

    def test_a_counter_that_the_watchdog_holds(self) -> None:
        for pmu, counters in (
            ("skl", "F0 F2 P0 P1 P2 P3 P4 P5 P6 P7"), ("amd64_fam17h_zen2", "P0 P1 P2 P3 P4"),
        ):
            rows = self.rows(pmu, "--watchdog")
            self.assertEqual(
                " ".join(row.split(",")[1] for row in rows if row.startswith("COUNTER")), counters
            )
            self.assertIn("the kernel's watchdog holds a counter", rows[1])
        self.assertNotIn("F1", "".join(self.rows("skl", "--watchdog")).replace("0xF1", ""))

    def test_umasks_with_the_names_of_modifiers(self) -> None:
        """Haswell has L2_LINES_IN:E. A default umask would make that name this umask with an edge,
        another event."""
        rows = self.rows("hsw")
        lines = rows[rows.index(self.row(rows, "EVENT,L2_LINES_IN")) + 1 :][:3]
        self.assertEqual(
            [row.split(",")[1:4] for row in lines],
            [["S", "02", "n"], ["ALL", "07", "-"], ["ANY", "07", "-"]],
        )

    def test_fewer_counters(self) -> None:
        rows = self.rows("skl", "--counters", "4")
        self.assertEqual(
            [row.split(",")[1] for row in rows if row.startswith("COUNTER")],
            ["F0", "F1", "F2", "P0", "P1", "P2", "P3"],
        )
        self.assertIn("the first 4 of 8 programmable counters", rows[1])
        self.assertNotIn("hyperthreading", rows[1])
        self.assertTrue(
            self.row(rows, "EVENT,INSTRUCTION_RETIRED").startswith(
                "EVENT,INSTRUCTION_RETIRED,c0,P0 P1 P2 P3 F0,"
            )
        )
        rows = self.rows("skl", "--counters", "2", "--events", SAMPLE)
        self.assertTrue(
            self.row(rows, "EVENT,INST_RETIRED").startswith("EVENT,INST_RETIRED,c0,P0 P1 F0,")
        )
        self.assertFalse(any(row.startswith("UMASK,PENDING,") for row in rows))
        self.assertTrue(any(row.endswith(": the unit does not have its counters") for row in rows))

    def test_an_event_without_umasks_whose_counters_are_not_there(self) -> None:
        far = self.write("far.json", '[{"EventName": "FAR", "EventCode": "0xC4", "Counter": "5", '
                                     '"BriefDescription": "On the sixth counter"}]')
        for counters, reason in (("4", "the unit does not have its counters"), ("8", None)):
            told = dict(
                line.split(": ", 1)
                for line in self.rows("skl", "--counters", counters, "--events", far, "--left-out")
            )
            self.assertEqual(told.get("BRANCH_INSTRUCTIONS_RETIRED"), reason, counters)

    def test_a_umask_of_another_select_code(self) -> None:
        told = dict(line.split(": ", 1) for line in self.rows("icl", "--left-out"))
        self.assertEqual(told["TOPDOWN:SLOTS_P"], "the umask changes the select code")

    def test_modifiers_that_some_events_lack(self) -> None:
        account = Account()
        for modifiers in (
            {"u", "k", "e", "i", "c"}, {"u", "k", "e", "i", "c", "t"}, {"u", "k"}, {"u"}, set(),
        ):
            account.count_modifiers(modifiers)
        self.assertEqual(
            account.lines(False),
            [
                "left out: modifier t of 1 event",
                (
                    "taken all the same: the modifiers u k e i c, of which libpfm4 lacks some for "
                    "3 events"
                ),
            ],
        )

    def test_list(self) -> None:
        self.assertRegex(
            "\n".join(self.rows("--list")),
            r"(?m)^skl +core +\d+ events +8 \+ 3 counters +Intel Skylake$",
        )

    def test_refusals(self) -> None:
        for pmu, cause in (
            ("nosuch", "libpfm4 knows no PMU nosuch"), ("perf", "no event of perf has a code"),
        ):
            done = run_tool("make_unit", pmu)
            self.assertEqual((done.returncode, done.stdout), (1, ""))
            self.assertIn(cause, done.stderr)

    @needs_program
    def test_the_program_reads_the_unit(self) -> None:
        unit = self.write("skl.unit", "\n".join(self.rows("skl")) + "\n")
        done = run_program("papi_encode", "-U", unit, "skl::inst_retired", "LLC_MISSES:u")
        self.assertEqual(
            done.stdout, "skl::INST_RETIRED:ANY_P 0x5300c0\nskl::LLC_MISSES:0x41:u 0x51412e\n"
        )

    @needs_program
    def test_all_encodings_agree(self) -> None:
        done = subprocess.run([str(ROOT / "checks/encodings")], capture_output=True, text=True)
        self.assertEqual((done.returncode, done.stderr), (0, ""), done.stdout)
        print("encodings:", done.stdout.splitlines()[-1])


class Words(unittest.TestCase):
    def test_bad_words(self) -> None:
        for words in (
            (), ("skl", "--list"), ("skl", "--width", "15"), ("skl", "--counters", "0"),
            ("skl", "--linux"), ("--nothing",),
        ):
            self.assertEqual(run_tool("make_unit", *words).returncode, 2, words)
        self.assertEqual(run_tool("make_unit", "--help").returncode, 0)
