"""tools/make_map: widths, names, and the functions of a real program."""

from __future__ import annotations

import subprocess
import unittest

from formats.rows import MOST_BUCKETS
from parts.command import Fault
from parts.elf_file import Function
from parts.map_file import ADDRESSES, MOST_RANGES, map_names, ranges_of
from parts.stream_head import MOST_LINES, read_base
from parts.symbols import entry_of, is_loaded_anywhere, read_functions
from tests.support import TOOLS, InFolder, all_of, needs_command, run_tool


def rows(functions: list[Function], base: int = 0) -> list[str]:
    return [each.row() for each in ranges_of(functions, base)]


class Heads(InFolder):
    def test_where_a_program_of_this_kind_of_processor_begins(self) -> None:
        """The head of an ELF file: its kind of program at 16, its machine at 18, and where it
        begins at 24."""
        for bits, machine, is_known in ((2, 62, True), (1, 62, False), (2, 183, False)):
            head = (
                b"\x7fELF"
                + bytes([bits, 1, 1, *[0] * 9])
                + b"".join(
                    number.to_bytes(size, "little")
                    for number, size in ((2, 2), (machine, 2), (1, 4), (0x401020, 8), (0, 32))
                )
            )
            program = self.folder / "program"
            program.write_bytes(head)
            if is_known:
                self.assertEqual(
                    (entry_of(str(program)), is_loaded_anywhere(str(program))), (0x401020, False)
                )
            else:
                with self.assertRaisesRegex(Fault, "not a program for x86-64"):
                    entry_of(str(program))


class Ranges(unittest.TestCase):
    def test_a_bucket_for_each_address_where_they_fit(self) -> None:
        functions = [Function("init", 0x10, 5), Function("loop", 0x20, 16)]
        self.assertEqual(
            rows(functions, 0x400000), ["RANGE,init,0x400010,1,5", "RANGE,loop,0x400020,1,16"]
        )

    def test_wider_buckets_where_there_are_too_many(self) -> None:
        functions = [Function("a", 0, 50_000), Function("b", 50_001, 40_000)]
        self.assertEqual(rows(functions), ["RANGE,a,0x0,2,25000", "RANGE,b,0xc351,2,20000"])

    def test_no_bucket_reaches_into_the_next_function(self) -> None:
        functions = [Function("a", 0, 33), Function("b", 33, 100_000), Function("c", 200_000, 30)]
        self.assertEqual(
            rows(functions), ["RANGE,a,0x0,1,33", "RANGE,b,0x21,2,50000", "RANGE,c,0x30d40,2,15"]
        )
        self.assertEqual(
            rows([Function("a", 0, 10), Function("b", 4, 6)]),
            ["RANGE,a,0x0,1,4", "RANGE,b,0x4,1,6"],
        )

    def test_a_function_that_wide_buckets_do_not_fit_has_narrow_ones(self) -> None:
        functions = [
            Function("a", 0, 100_000), Function("b", 100_000, 33), Function("c", 100_033, 9),
            Function("d", 100_050, 9),
        ]
        self.assertEqual(
            rows(functions)[1:],
            ["RANGE,b,0x186a0,1,33", "RANGE,c,0x186c1,2,5", "RANGE,d,0x186d2,2,5"],
        )

    def test_the_end_of_all_addresses(self) -> None:
        self.assertEqual(
            rows([Function("a", 2, 100)], ADDRESSES - 10), [f"RANGE,a,{ADDRESSES - 8:#x},1,8"]
        )

    def test_limits(self) -> None:
        many = [
            Function(f"f{number}", number * 4096, 2 if number % 2 else 4000)
            for number in range(3000)
        ]
        ranges = ranges_of(many, 0)
        self.assertEqual(len(ranges), MOST_RANGES)
        self.assertTrue(all_of(ranges, lambda each: each.width * each.buckets >= 4000))
        self.assertLessEqual(sum(each.buckets for each in ranges), MOST_BUCKETS)
        huge = ranges_of([Function("huge", 0, 1 << 40)], 0)
        self.assertEqual([each.row() for each in huge], ["RANGE,huge,0x0,1048576,65536"])

    def test_names(self) -> None:
        long = "x" * 70
        self.assertEqual(
            map_names(["f.part.0", "f_part_0", "g@@V1", long, long]),
            ["f_part_0", "f_part_0_2", "g__V1", "x" * 64, "x" * 62 + "_2"],
        )


@needs_command("nm", "binutils")
@needs_command("cc", "a C compiler")
class RealProgram(InFolder):
    def test_functions(self) -> None:
        program = str(self.folder / "sample")
        words = [
            "cc", "-O1", "-static", "-nostdlib", "-fno-stack-protector", "-fno-pie", "-no-pie",
            "-o", program,
        ]
        subprocess.run([*words, str(TOOLS / "tests/sample.c")], check=True)
        done = run_tool("make_map", "--base", "0x1000", program)
        self.assertEqual((done.returncode, done.stderr), (0, ""))
        ranges = [row.split(",") for row in done.stdout.splitlines()]
        self.assertEqual(sorted(row[1] for row in ranges), ["_start", "fill", "look"])
        listed = subprocess.run(["nm", program], capture_output=True, text=True, check=True).stdout
        look = next(line for line in listed.splitlines() if line.endswith(" look"))
        self.assertEqual(
            next(int(row[2], 16) for row in ranges if row[1] == "look"),
            int(look.split()[0], 16) + 0x1000,
        )
        subprocess.run(["strip", program], check=True)
        done = run_tool("make_map", program)
        self.assertEqual((done.returncode, done.stdout), (1, ""))
        self.assertIn("has no functions among its symbols", done.stderr)

    def test_a_program_that_is_loaded_anywhere(self) -> None:
        """The stream says where it was. Without that the addresses are those of the file, and a
        line says so."""
        program = str(self.folder / "anywhere")
        words = [
            "cc", "-O1", "-nostdlib", "-static-pie", "-fpie", "-fno-stack-protector", "-o", program,
        ]
        subprocess.run([*words, str(TOOLS / "tests/sample.c")], check=True)
        stream = self.write("stream", "# loaded at 0x108000\n0 c0 00 u 1 109000\n")
        by_stream = run_tool("make_map", "--stream", stream, program)
        by_base = run_tool("make_map", "--base", "0x108000", program)
        self.assertEqual(
            (by_stream.returncode, by_stream.stderr, by_stream.stdout), (0, "", by_base.stdout)
        )
        bare = run_tool("make_map", program)
        self.assertEqual(
            (bare.returncode, bare.stdout), (0, run_tool("make_map", "--base", "0", program).stdout)
        )
        self.assertIn("may be loaded anywhere", bare.stderr)
        for end in ("2>&-", "2>/dev/full"):
            done = subprocess.run(
                ["sh", "-c", f'"$@" {end}', "sh", str(TOOLS / "make_map"), program],
                capture_output=True, text=True,
            )
            self.assertEqual((done.returncode, done.stdout), (0, bare.stdout), end)
        late = "0 c0 00 u 1 1\n" * (MOST_LINES - 1) + "# loaded at 0x108000\n"
        self.assertEqual(read_base(self.write("late", late)), 0x108000)
        with self.assertRaisesRegex(Fault, "does not say where"):
            read_base(self.write("later", "\n" + late))
        for name, text, cause in (
            ("other", "0 c0 00 u 1 109000\n", "does not say where"),
            ("empty", "", "does not say where"),
        ):
            done = run_tool("make_map", "--stream", self.write(name, text), program)
            self.assertEqual((done.returncode, done.stdout), (1, ""))
            self.assertIn(cause, done.stderr)
        self.assertIn(
            "No such file",
            run_tool("make_map", "--stream", "absent", program, folder=self.folder).stderr,
        )

    def test_a_place_that_is_too_high(self) -> None:
        program = str(self.folder / "sample")
        words = [
            "cc", "-O1", "-static", "-nostdlib", "-fno-stack-protector", "-fno-pie", "-no-pie",
            "-o", program,
        ]
        subprocess.run([*words, str(TOOLS / "tests/sample.c")], check=True)
        done = run_tool("make_map", "--base", hex(ADDRESSES - 1), program)
        self.assertEqual(
            (done.returncode, done.stdout, done.stderr),
            (1, "", f"make_map: {ADDRESSES - 1:#x}: no program of this size can be there\n"),
        )
        last = read_functions(program)[-1]
        highest = ADDRESSES - last.address - last.size
        self.assertEqual(
            [
                run_tool("make_map", "--base", str(base), program).returncode
                for base in (highest, highest + 1)
            ],
            [0, 1],
        )

    def test_more_functions_than_a_map_has_ranges(self) -> None:
        program = str(self.folder / "many")
        source = (
            "".join(f"void f{number}(void) {{}}\n" for number in range(MOST_RANGES + 5))
            + "void _start(void) {}\n"
        )
        subprocess.run(
            ["cc", "-O1", "-nostdlib", "-no-pie", "-x", "c", "-", "-o", program], input=source,
            text=True, check=True,
        )
        done = run_tool("make_map", "--base", "0", program)
        first, *rows_made = done.stdout.splitlines()
        self.assertEqual(
            (first, len(rows_made)),
            (f"# left out: 6 of {MOST_RANGES + 6:,} functions", MOST_RANGES),
        )

    def test_what_is_no_program(self) -> None:
        head, rest = b"\x7fELF\x02\x01" + bytes(10), bytes(46)
        for content, is_any in (
            (head + b"\3\0" + rest, True), (head + b"\2\0" + rest, False), (head + b"\3", None),
            (b"words" * 9, None), (b"", None),
        ):
            (self.folder / "some").write_bytes(content)
            if is_any is None:
                with self.assertRaisesRegex(Fault, "some: not a program file"):
                    is_loaded_anywhere(str(self.folder / "some"))
            else:
                self.assertEqual(is_loaded_anywhere(str(self.folder / "some")), is_any)
        with self.assertRaisesRegex(Fault, "none: No such file or directory"):
            is_loaded_anywhere(str(self.folder / "none"))

    def test_refusals(self) -> None:
        for program, cause in (
            (str(self.folder / "absent"), "No such file"),
            (self.write("text", "words"), "not a program file"),
        ):
            done = run_tool("make_map", program)
            self.assertEqual((done.returncode, done.stdout), (1, ""))
            self.assertIn(cause, done.stderr)


class Words(unittest.TestCase):
    def test_bad_words(self) -> None:
        for words in (
            (), ("--base", "x", "p"), ("--base", "-1", "p"), ("a", "b"),
            ("--base", "0", "--stream", "s", "p"),
        ):
            self.assertEqual(run_tool("make_map", *words).returncode, 2, words)
        self.assertEqual(run_tool("make_map", "--help").returncode, 0)
