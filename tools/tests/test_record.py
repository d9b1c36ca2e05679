"""tools/record: its words, and real programs against lackey's totals and what their loops do.
test_tool.py has the tool behind it."""

from __future__ import annotations

import os
import re
import shutil
import subprocess
import sys
import tempfile
import unittest
from collections import Counter
from pathlib import Path
from unittest import mock

from parts import valgrind
from parts.codes import codes_of
from parts.command import Fault
from parts.counting import Counting, _changes
from parts.machine import (
    MACHINES, MOST_WAYS, Shape, machine_name, read_buffer, read_cache, read_costs, read_predictor,
)
from parts.processors import tables
from parts.ranks import of_rank
from tests.support import (
    ROOT, TOOLS, InFolder, needs_command, needs_libpfm4, needs_program, run_program, run_tool, some,
)


class UnderValgrind(InFolder):
    def test_the_stack_begins_at_one_place(self) -> None:
        """Words, variables and the program's path stand above it, each with its end, and a pointer
        for each of the first two."""
        for words in (["a"], ["/a/longer/path", "two words", ""]):
            for changes in ({}, {"X": "1"}, {"LONG": "x" * 70_000}):
                strings = [
                    *words,
                    *(
                        f"{name}={value}"
                        for name, value in valgrind.environment(words, changes).items()
                    ),
                ]
                size = (
                    sum(len(os.fsencode(text)) + 1 + valgrind.POINTER for text in strings)
                    + len(words[0]) + 1
                )
                self.assertEqual(size % valgrind.STACK_ROOM, 0, (words, len(strings)))

    def test_the_tool_is_kept_in_the_folder_for_caches(self) -> None:
        home, cache = self.folder / "home", self.folder / "cache"
        with mock.patch.dict(os.environ, {"HOME": str(home)}):
            os.environ.pop("XDG_CACHE_HOME", None)
            self.assertEqual(valgrind.cache_folder(), home / ".cache/kistalub")
            os.environ["XDG_CACHE_HOME"] = str(cache)
            self.assertEqual(valgrind.cache_folder(), cache / "kistalub")
        self.assertTrue((home / ".cache/kistalub").is_dir() and (cache / "kistalub").is_dir())

    def test_another_valgrind_has_another_tool(self) -> None:
        versions = []
        for text in ("one", "another"):
            program = self.write("valgrind", text)
            self.write("none-amd64-linux", text)
            os.chmod(program, 0o755)
            with mock.patch.dict(os.environ, {"PATH": str(self.folder)}), mock.patch(
                "parts.valgrind.folder", return_value=self.folder
            ):
                versions.append(valgrind._version())
        self.assertNotEqual(*versions)

    def test_the_words_stand_in_groups(self) -> None:
        for tool in ("record", "count"):
            self.assertIn("\nthe stream:\n", run_tool(tool, "--help").stdout)

    def test_libraries_that_the_environment_names_stay(self) -> None:
        counting = Counting(
            "a", [], next(iter(MACHINES.values())), str(self.folder), None, None, None, None
        )
        folder = str(self.folder).ljust(1024, "/")  # of one length wherever it is
        for before, wanted in ((None, folder), ("/x:/y", f"{folder}:/x:/y")):
            with mock.patch.dict(os.environ, {"LD_LIBRARY_PATH": before or ""}):
                if before is None:
                    del os.environ["LD_LIBRARY_PATH"]
                self.assertEqual(_changes(counting)["LD_LIBRARY_PATH"], wanted)


class Words(unittest.TestCase):
    def test_shapes(self) -> None:
        self.assertEqual(read_cache("32768,8,64"), Shape(512, 8, 64))
        self.assertEqual(read_buffer("64,4,4096"), Shape(64, 4, 4096))
        self.assertEqual(read_cache("64,1,64"), Shape(1, 1, 64))
        self.assertIsNone(read_cache("none"))
        for text in (
            "32768", "a,8,64", "0,8,64", "1000,8,64", "768,4,64", "384,2,48", "131072,256,64",
        ):
            with self.assertRaises(Fault, msg=text):
                read_cache(text)
        for text in ("", "64,4", "48,4,4096", "64,4,5000"):
            with self.assertRaises(Fault, msg=text):
                read_buffer(text)

    def test_the_tool_has_the_same_limits(self) -> None:
        header = (ROOT / "tools/valgrind/machine.h").read_text(encoding="utf-8")
        self.assertIn(f"#define MOST_WAYS {MOST_WAYS}\n", header)
        most = max(
            shape.ways for machine in MACHINES.values() for shape in machine.shapes.values()
            if shape
        )
        self.assertEqual((most, MOST_WAYS), (72, 128))

    def test_costs_and_predictors(self) -> None:
        self.assertEqual(read_costs("1,2,3,4,5"), (1, 2, 3, 4, 5))
        for text in ("1,2,3,4", "1,2,3,4,x", "1,2,3,4,10001"):
            with self.assertRaises(Fault, msg=text):
                read_costs(text)
        self.assertEqual(read_predictor("14"), 14)
        for text in ("0", "25", "-1", "x"):
            with self.assertRaises(Fault, msg=text):
                read_predictor(text)

    def test_every_machine_has_all_parts(self) -> None:
        for name, machine in MACHINES.items():
            self.assertEqual(set(machine.shapes), {"l1d", "l1i", "l2", "l3", "dtlb", "itlb"}, name)
        self.assertEqual({machine_name(pmu) for pmu in tables()}, set(MACHINES))

    def test_the_documents_have_every_machine(self) -> None:
        """docs/COUNTED.md: sizes with their ways."""
        text = (
            (ROOT / "docs/COUNTED.md")
            .read_text(encoding="utf-8")
            .partition("| Machine |")[2]
            .partition("\n\n")[0]
        )
        units, found = {"KiB": 1024, "MiB": 1 << 20, "pages": 1}, {}
        for row in text.splitlines()[2:]:
            names, *cells = row.strip("| ").split(" | ")
            words = [cell.replace(",", "").split() for cell in cells]
            shapes = [(int(number) * units[unit], int(ways)) for number, unit, ways in words]
            found.update({name.strip("`"): shapes for name in names.split(", ")})
        wanted = {
            name: [
                tuple(map(int, shape.option(part).split(",")[:2]))
                for part, shape in machine.shapes.items() if shape
            ]
            for name, machine in MACHINES.items()
        }
        self.assertEqual(found, wanted)

    def test_the_machine_is_told_to_the_tool_and_to_the_library(self) -> None:
        machine = MACHINES["skl"].with_shapes({"l2": None})
        shapes = [
            "--l1d=512,8,64", "--l1i=512,8,64", "--l2=none", "--l3=131072,16,64",
            "--dtlb=64,4,4096", "--itlb=128,8,4096",
        ]
        self.assertEqual(
            machine.tool_words(),
            ["--model=yes", "--predictor=14", "--costs=8,38,200,20,16", "--rep=turns", *shapes],
        )
        self.assertEqual(
            machine.caches(),
            "l1d=32768,8,64 l1i=32768,8,64 l3=8388608,16,64 dtlb=64,4,4096 itlb=128,8,4096",
        )

    def test_bad_words(self) -> None:
        for words in (
            (), ("--nothing", "true"), ("--l1d",), ("--l1d", "1,2", "true"),
            ("--machine", "x", "true"), ("--window", "0", "true"),
        ):
            self.assertEqual(run_tool("record", *words).returncode, 2, words)
        self.assertEqual(run_tool("record", "--help").returncode, 0)

    def codes(self, text: str) -> tuple[str, bool]:
        """The pmu of a unit's codes, and whether they are those of a table."""
        with tempfile.NamedTemporaryFile("w", suffix=".unit") as unit:
            unit.write(text)
            unit.flush()
            codes = codes_of(unit.name)
            return codes.pmu, bool(codes.lines)

    def test_the_unit_decides_on_the_codes(self) -> None:
        for pmu, has_table in (
            ("skl", True), ("SKX", True), ("icx", True), ("amd64_fam19h_zen4", True),
            ("nhm", False), ("recorded", False), ("skl2", False),
        ):
            head = f"\ufeff# COMPONENT,a,b\r\n\n COMPONENT , cpu,\t{pmu} \nCOMPONENT,other,skl\n"
            self.assertEqual(self.codes(head), (pmu, has_table), pmu)
        self.assertEqual(self.codes(""), ("", False))
        done = run_tool("record", "--unit", "/no/such.unit", "true")
        self.assertEqual(
            (done.stdout, done.stderr.startswith("record: "), done.returncode > 0), ("", True, True)
        )

    def test_units_whose_events_would_count_something_else(self) -> None:
        """A unit of a user has codes of examples/recorded.unit, and one of a processor those of its
        table."""
        mine = "COMPONENT,cpu,mine\nCOUNTER,P0,48,P\n"
        rows = (
            "EVENT,INS,c0,P0,\nEVENT,BR,c4,P0,\nUMASK,TAKEN,20,-,\nUMASK,ALL,a5,-,\n"
            "EVENT,ALL_L2,25,P0,\n"
        )
        self.assertEqual(self.codes(mine + rows), ("mine", False))
        for row, name in (
            ("EVENT,OTHER,c9,P0,", "OTHER"), ("EVENT,INS2,c0,P0,\nUMASK,SOME,01,-,", "INS2:SOME"),
            ("EVENT,MEM,d0,P0,\nUMASK,LOCKED,21,-,", "MEM:LOCKED"),
        ):
            with self.assertRaisesRegex(
                Fault,
                (
                    f"{name} has a code that examples/recorded.unit has not.* there are tables for "
                    "amd64_fam17h_zen1 .* skl "
                ),
            ):
                self.codes(mine + rows + row + "\n")
        for row, cause in (
            (
                "EVENT,INST_RETIRED,c0,P0,\nUMASK,ANY_P,00,d,",
                (
                    "INST_RETIRED:ANY_P has a code of the processor itself: tools/make_unit skl "
                    "--counted"
                ),
            ),
            (
                "EVENT,BACLEARS,05,P0,\nUMASK,ANY,01,d,",
                (
                    "BACLEARS:ANY has no row in the table of skl, and its code is that of other "
                    "events: tools/make_unit skl --counted"
                ),
            ),
        ):
            with self.assertRaisesRegex(Fault, cause):
                self.codes("COMPONENT,cpu,skl\nCOUNTER,P0,48,P\n" + row + "\n")

    def test_events_without_a_row(self) -> None:
        """Where no line has their code they count nothing: a line names them, and with --strict
        they are refused."""
        with tempfile.NamedTemporaryFile("w", suffix=".unit") as unit:
            unit.write(
                "COMPONENT,cpu,skl\nCOUNTER,P0,48,P\nEVENT,BACLEARS,f0,P0,\nUMASK,ANY,01,d,\n"
                "EVENT,UOPS_ISSUED,f1,P0,\n"
            )
            unit.flush()
            text = (
                f"record: {unit.name}: nothing that is counted here is counted by BACLEARS:ANY, "
                "UOPS_ISSUED"
            )
            for words, ending in (
                ((), "\nrecord: /no/such/program: no such program\n"),
                (
                    ("--strict",),
                    ": tools/make_unit skl --counted makes the unit that is counted over\n",
                ),
            ):
                done = run_tool("record", *words, "--unit", unit.name, "/no/such/program")
                self.assertEqual(
                    (done.stdout, done.stderr, done.returncode), ("", text + ending, 1), words
                )

    def test_files_of_ranks(self) -> None:
        self.assertEqual(of_rank("plain"), "plain")
        self.assertRegex(of_rank("run.%r.stream"), r"^run\.\d+\.stream$")


@needs_command("valgrind", "valgrind")
@needs_command("cc", "a C compiler")
class RealProgram(InFolder):
    def setUp(self) -> None:
        super().setUp()
        self.program = self.compile("sample", "-static", "-fno-pie", "-no-pie")
        self.stream = str(self.folder / "stream")

    def compile(self, name: str, *flags: str) -> str:
        program = str(self.folder / name)
        words = [
            "cc", "-O1", "-nostdlib", "-fno-stack-protector", "-fno-tree-vectorize", *flags, "-o",
            program, str(TOOLS / "tests/sample.c"),
        ]
        subprocess.run(words, check=True)
        return program

    def totals(self) -> Counter[str]:
        """The amounts of the stream by select code and umask."""
        found: Counter[str] = Counter()
        for line in Path(self.stream).read_text(encoding="ascii").splitlines()[1:]:
            words = line.split()
            found[f"{words[1]} {words[2]}"] += int(words[4])
        return found

    def test_totals_of_lackey(self) -> None:
        done = run_tool("record", "-o", self.stream, self.program)
        self.assertEqual(done.returncode, 0, done.stderr)
        told = subprocess.run(
            [
                "valgrind", "--tool=lackey", "--vex-guest-chase=no", "--detailed-counts=yes",
                self.program,
            ],
            capture_output=True,
            text=True,
            check=True,
        ).stderr
        instructions = int(re.findall(r"guest instrs: +([\d,]+)", told)[0].replace(",", ""))
        rows = re.findall(r"== +[IFDV]\d+ +([\d,]+) +([\d,]+) ", told)
        loads, stores = (
            sum(int(row[column].replace(",", "")) for row in rows) for column in (0, 1)
        )
        found = self.totals()
        self.assertEqual(
            [found["c0 00"], found["d0 01"], found["d0 02"]], [instructions, loads, stores]
        )
        self.assertTrue(
            done.stderr.startswith(
                f"record: {instructions:,} instructions, {loads:,} loads, {stores:,} stores, "
            ),
            done.stderr,
        )
        total, taken = (
            int(re.findall(rf"{word}: +([\d,]+)", told)[0].replace(",", ""))
            for word in ("total", "taken")
        )
        self.assertEqual([found["c4 a5"] + found["c4 15"], found["c4 a5"]], [total, taken])

    def test_each_line_and_gathered_lines_have_the_same_totals(self) -> None:
        run_tool("record", "-o", self.stream, self.program)
        gathered = self.totals()
        size = Path(self.stream).stat().st_size
        run_tool("record", "--each", "-o", self.stream, self.program)
        self.assertEqual(self.totals(), gathered)
        self.assertGreater(Path(self.stream).stat().st_size, 10 * size)

    def test_the_lines_of_a_table(self) -> None:
        """Each quantity has as many occurrences in each of its lines as in its line for
        examples/recorded.unit. Hits of the first level are what is left of the loads."""
        unit = self.write("unit", "COMPONENT,cpu,skl\n")
        small = ("--l1d", "512,8,64", "--l2", "512,2,64", "--l3", "1024,4,64", "-o", self.stream)
        run_tool("record", *small, self.program)
        old = self.totals()
        run_tool("record", "--unit", unit, *small, self.program)
        new = self.totals()
        run_tool("record", "--unit", unit, "--each", *small, self.program)
        self.assertEqual(self.totals(), new)
        table = tables()["skl"]
        self.assertEqual(
            set(new)
            - {
                f"{select:02x} {mask:02x}" for codes in table.lines().values()
                for select, mask in codes
            },
            set(),
        )
        recorded = {
            "instructions": "c0 00", "cycles": "3c 00", "stalls": "a2 01", "loads": "d0 01",
            "stores": "d0 02", "l1d_load_misses": "51 03", "l1d_store_misses": "51 05",
            "l1i_misses": "83 02", "l2_load_hits": "25 01", "l2_load_misses": "25 09",
            "l2_store_misses": "25 12", "l2_fetch_hits": "25 04", "l2_fetch_misses": "25 24",
            "l3_load_hits": "2f 01", "l3_load_misses": "2f 09", "l3_store_misses": "2f 12",
            "l3_fetch_misses": "2f 24", "dtlb_load_misses": "08 01", "itlb_misses": "85 01",
            "conditional_taken": "c4 a5", "conditional_not_taken": "c4 15", "jumps": "c4 24",
            "calls": "c4 26", "returns": "c4 2c", "mispredicted_taken": "c5 25",
        }
        for quantity, codes in table.lines().items():
            wanted = (
                old["d0 01"] - old["51 03"] if quantity == "load_hits" else old[recorded[quantity]]
                if quantity in recorded else None
            )
            if wanted is not None:
                self.assertEqual(
                    [new[f"{select:02x} {mask:02x}"] for select, mask in codes],
                    [wanted] * len(codes), quantity,
                )
        self.assertGreater(len([quantity for quantity in recorded if old[recorded[quantity]]]), 10)

    def test_two_recordings_have_the_same_bytes(self) -> None:
        both = []
        for _ in range(2):
            run_tool("record", "-o", self.stream, self.program)
            both.append(Path(self.stream).read_bytes())
        self.assertEqual(both[0], both[1])

    def test_from_a_function(self) -> None:
        """It reads 16 bytes on eight lines, of which a cache of four lines has none, in 2 times 8
        turns."""
        done = run_tool(
            "record", "--l1d", "256,2,64", "--from", "look", "-o", self.stream, self.program
        )
        self.assertEqual(done.returncode, 0, done.stderr)
        found = self.totals()
        self.assertGreaterEqual(found["d0 01"], 16)
        self.assertGreaterEqual(found["51 03"], 16)
        self.assertGreaterEqual(found["c4 a5"] + found["c4 15"], 16)
        self.assertEqual(found["c4 2c"], 1)

    def test_from_a_function_that_is_never_entered(self) -> None:
        program = self.compile(
            "more", "-static", "-fno-pie", "-no-pie", self.write("rest.c", "void rest(void) { }\n")
        )
        done = run_tool("record", "--from", "rest", "-o", self.stream, program)
        self.assertEqual(
            (done.returncode, done.stderr), (1, f"record: {program} never entered rest\n")
        )

    def test_a_program_that_is_loaded_anywhere(self) -> None:
        """The first instruction is where make_map has the function."""
        program = self.compile("anywhere", "-static-pie", "-fpie")
        self.assertEqual(
            run_tool("record", "--each", "--from", "look", "-o", self.stream, program).returncode, 0
        )
        with open(self.stream, encoding="ascii") as file:
            head, first = file.readline(), file.readline()
        base = head.removeprefix("# loaded at ").strip()
        self.assertNotEqual(base, "0x0")
        ranges = run_tool("make_map", "--base", base, program).stdout
        self.assertIn(f"RANGE,look,0x{first.split()[5]},", ranges)

    def count(self, unit: str, events: list[str], presets: list[str]) -> tuple[list[str], str]:
        """What record tells of the sample, and what the program counts of these events."""
        done = run_tool(
            "record", "--unit", unit, "--l1d", "256,2,64", "-o", self.stream, self.program
        )
        told = [number.replace(",", "") for number in re.findall(r"([\d,]+) [ilsm]", done.stderr)]
        calls = (
            ["create"] + [f"add 0 {event}" for event in events]
            + ["start 0", "run 100000", "stop 0"]
        )
        script = self.write("script", "".join(f"0 {call}\n" for call in calls))
        counted = run_program("papi_run", "-U", unit, *presets, script, self.stream)
        self.assertEqual(counted.stderr, "")
        return told, counted.stdout.splitlines()[-1].removeprefix("8 0 stop PAPI_OK ")

    @needs_program
    def test_the_presets_of_a_recorded_program(self) -> None:
        events = ["PAPI_TOT_INS", "PAPI_LD_INS", "PAPI_SR_INS", "PAPI_L1_DCM"]
        presets = ["-P", str(ROOT / "examples/recorded.presets"), "-C", "recorded"]
        told, counted = self.count(str(ROOT / "examples/recorded.unit"), events, presets)
        self.assertEqual(counted, " ".join(told))

    @needs_program
    @needs_libpfm4
    def test_the_events_of_a_real_processor(self) -> None:
        events = [
            "INST_RETIRED:ANY_P", "MEM_INST_RETIRED:ALL_LOADS", "MEM_INST_RETIRED:ALL_STORES",
            "L1D:REPLACEMENT",
        ]
        unit = self.write("skl.unit", run_tool("make_unit", "skl", "--counted").stdout)
        told, counted = self.count(unit, events, [])
        self.assertEqual(counted, " ".join(told))

    def test_refusals(self) -> None:
        cases = (
            (("nosuchprogram",), "record: nosuchprogram: no such program"),
            (("--from", "nosuch", self.program), f"record: {self.program} has no function nosuch"),
            (
                ("-o", str(self.folder / "no/where"), self.program),
                "no/where: No such file or directory",
            ),
            (("--only-calls", "-o", self.stream, self.program), "made no call of PAPI"),
        )
        for words, cause in cases:
            done = run_tool("record", *words)
            self.assertEqual(done.returncode, 1)
            self.assertIn(cause, done.stderr)
        done = run_tool("record", "-o", self.stream, "sh", "-c", "exit 7")
        self.assertEqual(done.returncode, 1)
        self.assertTrue(done.stderr.endswith("record: sh ended with status 7\n"))


@needs_program
class Presets(unittest.TestCase):
    def test_each_preset_and_user_event_of_the_file_is_available(self) -> None:
        rows = (ROOT / "examples/recorded.presets").read_text(encoding="utf-8").splitlines()
        names = [row.split(",")[1] for row in rows if row.startswith(("PRESET,", "EVENT,"))]
        listed = run_program(
            "papi_avail", "-U", str(ROOT / "examples/recorded.unit"), "-P",
            str(ROOT / "examples/recorded.presets"), "-C", "recorded",
        )
        events = [line.split() for line in listed.stdout.splitlines() if " 0x" in line]
        self.assertEqual([event[0] for event in events if event[2] == "Yes"], some(names))


@needs_command("valgrind", "valgrind")
@needs_command("cc", "a C compiler")
class Missing(InFolder):
    def test_a_program_that_is_a_head_alone(self) -> None:
        program = self.folder / "head"
        program.write_bytes(Path("/bin/true").resolve().read_bytes()[:64])
        program.chmod(0o755)
        done = run_tool("record", "-o", str(self.folder / "stream"), str(program))
        self.assertEqual((done.returncode, done.stdout), (1, ""))
        self.assertRegex(
            done.stderr, r"(?m)^record: .*/head can't be run under valgrind \(status -?\d+\)$"
        )

    def test_what_is_not_installed_is_named(self) -> None:
        version = (
            '#!/bin/sh\n'
            'echo '
            f'{subprocess.run(["valgrind", "--version"], capture_output=True, text=True).stdout}'
        )
        for there, cause in (((), "valgrind"), (("uname", "sh"), "cc")):
            folder = self.folder / f"without-{cause}"
            folder.mkdir()
            for command in there:
                (folder / command).symlink_to(shutil.which(command) or command)
            if cause != "valgrind":
                (folder / "valgrind").write_text(version, encoding="ascii")
                (folder / "valgrind").chmod(0o755)
            environment = {
                **os.environ,
                "PATH": str(folder),
                "XDG_CACHE_HOME": str(folder / "cache"),
            }
            line = [
                sys.executable, str(TOOLS / "record"), "-o", str(folder / "stream"), "/bin/true",
            ]
            done = subprocess.run(line, env=environment, capture_output=True, text=True)
            self.assertEqual(done.returncode, 1)
            self.assertRegex(
                done.stderr, rf"^record: {cause} is not installed \(apt-get install \w+\)\n$"
            )
