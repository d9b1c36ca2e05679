"""Kernels in assembly whose counts are known by hand (checks/kernels --quick): two ways of looking,
and as a recording."""

from __future__ import annotations

import subprocess
import sys
import unittest
from collections import Counter
from pathlib import Path

from kernel_events import difference, meaning_of, why_untried
from kernel_files import Kernel, all_kernels, read_kernels
from parts.command import Fault
from parts.event_sums import Sum
from parts.processors import NOTHING, tables
from tests.support import ROOT, InFolder, all_of, needs_command, needs_libpfm4, needs_program, some

# What the processor's manuals and compilers have: each word is in some kernel's text.
CLASSES = (
    "push",
    "pop",
    "leave",
    "cmov",
    "xchg",
    "lock",
    "cmpxchg16b",
    "bt",
    "set",
    "prefetcht0",
    "movss",
    "addpd",
    "dpps",
    "vaddps",
    "vfmadd",
    "vmaskmov",
    "vgather",
    "fld",
    "fadd",
    "fxsave",
    "xsave",
    "rep movs",
    "rep stos",
    "repe cmps",
    "repne scas",
    "lods",
    "call *",
    "jmp *",
    "ret",
    "loop",
    "%fs:",
    "maskmovdqu",
)
CONDITIONS = (
    "o",
    "no",
    "b",
    "ae",
    "e",
    "ne",
    "be",
    "a",
    "s",
    "ns",
    "p",
    "np",
    "l",
    "ge",
    "le",
    "g",
)


class Files(InFolder):
    def read(self, text: str) -> list[Kernel]:
        return read_kernels(Path(self.write("lines.kernels", text)))

    def test_what_a_kernel_counts(self) -> None:
        """Ten turns of a load and a store with the loop's two instructions, one before the loop,
        and that which sets its number of turns."""
        (kernel,) = self.read(
            "# a comment\nboth: mov (%rsi),%rax ;\n  mov %rax,(%rdi) = 2 instructions,\n"
            "  1 load, 1 store\n  first nop\n  turns 10\n  whole 3 load misses\n  by lines 1 load\n"
        )
        wanted = {kind: count for kind, count in kernel.wanted().items() if count}
        self.assertEqual(
            wanted,
            {
                "instructions": 42,
                "loads": 10,
                "stores": 10,
                "conditional_taken": 9,
                "conditional_not_taken": 1,
                "l1d_load_misses": 3,
            },
        )
        self.assertEqual(
            (kernel.wanted(by_lines=True)["loads"], kernel.wanted(by_lines=True)["stores"]), (10, 0)
        )

    def test_lines_that_are_none(self) -> None:
        for text, cause in (
            ("a: nop = 1 instruktion\n", "lines.kernels:1: no count: 1 instruktion"),
            ("a: nop = 1 instruction\n  often 3\n", "lines.kernels:2: often: no such word"),
        ):
            with self.assertRaisesRegex(Fault, cause):
                self.read(text)

    def test_each_class_of_instruction_has_a_kernel(self) -> None:
        kernels = all_kernels()
        text = "\n".join(line for kernel in kernels for line in (*kernel.body, *kernel.after))
        self.assertEqual([word for word in CLASSES if word not in text], [])
        self.assertEqual([name for name in CONDITIONS if f"j{name} " not in text], [])
        self.assertGreaterEqual(len(kernels), 120)
        counted = sum((kernel.each + kernel.whole for kernel in kernels), Counter[str]())
        self.assertEqual([kind for kind in kernels[0].wanted() if not counted[kind]], [])


@needs_command("valgrind", "valgrind")
@needs_command("cc", "a C compiler")
@needs_command("objcopy", "binutils")
class Kernels(unittest.TestCase):
    def test_kernels(self) -> None:
        done = subprocess.run(
            [sys.executable, str(ROOT / "checks/kernels"), "--quick"],
            capture_output=True,
            text=True,
        )
        self.assertEqual((done.returncode, done.stderr), (0, ""), done.stdout[-3000:])
        self.assertRegex(done.stdout, r"\A\d{4} passed, 0 failed\n\Z")

    @needs_libpfm4
    @needs_program
    @needs_command("nm", "binutils")
    def test_kernels_over_processors(self) -> None:
        """One of Intel's and one of AMD's."""
        command = [str(ROOT / "checks/kernels"), "--processors", "skl", "amd64_fam17h_zen1"]
        done = subprocess.run([sys.executable, *command], capture_output=True, text=True)
        self.assertEqual((done.returncode, done.stderr), (0, ""), done.stdout[-3000:])
        self.assertRegex(
            done.stdout, r"skl: 113 of 117 events tried; Valgrind does not run AVX-512: "
        )
        self.assertRegex(done.stdout, r"\n\d{3} passed, 0 failed\n\Z")


class Meanings(unittest.TestCase):
    def test_each_row_is_what_its_name_means(self) -> None:
        for pmu, table in some(tables().items()):
            for row in table.rows.values():
                kinds = tuple(kind for kind in row.quantities if kind != NOTHING)
                self.assertEqual(sorted(meaning_of(row.name) or ()), sorted(kinds), (pmu, row.name))
                wide = bool(kinds) and all_of(kinds, lambda kind: kind.endswith("_512"))
                self.assertEqual(bool(why_untried(row.name)), wide, (pmu, row.name))
        self.assertIsNone(meaning_of("UOPS_ISSUED:ANY"))

    def test_an_event_that_counts_something_else(self) -> None:
        """By the first kernel that shows it; and one that no kernel shows is told."""
        kernels = [
            kernel for kernel in all_kernels() if kernel.name in ("jmp_direct", "call_direct")
        ]
        jumps = ("jumps",)
        for weights, wanted in (
            ({"jumps": 1}, ("", True)),
            ({"jumps": 2}, ("jmp_direct: 4,000 for 2,000", True)),
            ({"jumps": 1, "calls": 1}, ("call_direct: 1,000 for 0", True)),
            ({"cycles": 1}, ("counts cycles", True)),
        ):
            self.assertEqual(difference(Sum("E", weights), jumps, kernels), wanted)
        self.assertEqual(difference(Sum("E", {"x87": 1}), ("x87",), kernels), ("", False))


@needs_command("valgrind", "valgrind")
@needs_command("cc", "a C compiler")
@needs_command("nm", "binutils")
class Cachegrind(unittest.TestCase):
    def test_two_programs(self) -> None:
        """One without a library and one with it, and four functions (checks/cachegrind --quick)."""
        command = [sys.executable, str(ROOT / "checks/cachegrind"), "--quick"]
        done = subprocess.run(command, capture_output=True, text=True)
        self.assertEqual((done.returncode, done.stderr), (0, ""), done.stdout)
        self.assertTrue(done.stdout.endswith("\n24 passed, 0 failed\n"), done.stdout)
