"""What processors answer to CPUID, and whether the machines are like these (checks/machines)."""

from __future__ import annotations

import subprocess
import sys
import unittest
from pathlib import Path

from cpuid_dumps import Dump, read_lines, read_text, read_xml
from parts.machine import MACHINES, Shape
from tests.support import ROOT, InFolder, some

# Numbers by Intel's manual (volume 2A, CPUID) and AMD's (volume 3, appendix E): a cache of data of
# the first level with 64 sets of 8 ways and lines of 64 bytes, one of the second with 1,024 of 4.
INTEL = 0x756E6547, 0x6C65746E, 0x49656E69
SKYLAKE = 0x000506E3
FIRST_DATA, FIRST_CODE = (0x21, 0x01C0003F, 0x3F, 0), (0x22, 0x01C0003F, 0x3F, 0)
SECOND, THIRD = (0x43, 0x00C0003F, 0x3FF, 0), (0x163, 0x03C0003F, 0x1FFF, 0)
DESCRIPTORS = 0x00000301, 0x00F0B5FF, 0, 0  # 64 pages of 4 ways, and a thread's 64 of 8
TWO_THREADS = 1, 2, 0x100, 0


def rows(second: tuple[int, ...] = SECOND) -> list[tuple[int, int, tuple[int, ...]]]:
    """Leaf, subleaf and answer."""
    told = (FIRST_DATA, FIRST_CODE, second, THIRD)
    caches = [(4, number, row) for number, row in enumerate(told)]
    first = [(0, 0, (0x16, *INTEL)), (1, 0, (SKYLAKE, 0, 0, 0)), (2, 0, DESCRIPTORS)]
    return [*first, *caches, (11, 0, TWO_THREADS)]


def as_xml(found: list[tuple[int, int, tuple[int, ...]]]) -> str:
    names = ("eax", "ebx", "ecx", "edx")
    lines = [
        f"<cpuid eax_in='{leaf:#010x}' ecx_in='{sub:#04x}' "
        + " ".join(f"{name}='{number:#010x}'" for name, number in zip(names, row))
        + "/>"
        for leaf, sub, row in found
    ]
    return "\n".join(["<cpudata arch='x86'>", *lines, "</cpudata>"])


def as_text(found: list[tuple[int, int, tuple[int, ...]]]) -> str:
    lines = [
        f"CPUID {leaf:08X}: {'-'.join(f'{number:08X}' for number in row)} [SL {sub:02X}] [a word]"
        for leaf, sub, row in found
    ]
    first, second = ("------[ Logical CPU #{} ]------".format(number) for number in (0, 1))
    return "\n".join([first, *lines, second, "CPUID 00000001: " + "-".join(["00000000"] * 4)])


def as_lines(found: list[tuple[int, int, tuple[int, ...]]]) -> str:
    lines = [
        f"5 {leaf:x} 0 {sub:x} 0 => {' '.join(f'{number:x}' for number in row)}"
        for leaf, sub, row in found
    ]
    return "\n".join(["# mask e[abcd]x => e[abcd]x", *lines])


class Dumps(unittest.TestCase):
    def test_three_forms_of_one_processor(self) -> None:
        for read, text in ((read_xml, as_xml), (read_text, as_text), (read_lines, as_lines)):
            dump = Dump("some", read(text(rows())))
            self.assertEqual((dump.model(), dump.threads()), ((6, 0x5E, 3), 2), text)
            shapes = {**dump.caches(), **dump.buffers()}
            self.assertEqual(shapes, MACHINES["skl"].shapes, text)

    def test_buffers_that_are_told_in_other_ways(self) -> None:
        """By leaf 18: 16 sets of 4 ways for loads, 32 of 8 for fetches; others are large or of the
        second level. And by AMD's leaf: 72 pages in one set, 64 of 4 ways."""
        of_intel = [
            (0x18, 0, (3, 0x00040001, 16, 0x24)),
            (0x18, 1, (0, 0x00080001, 32, 0x22)),
            (0x18, 2, (0, 0x00080006, 4, 0x22)),
            (0x18, 3, (0, 0x00080007, 128, 0x43)),
        ]
        of_amd = [(0x80000005, 0, (0, 0xFF480440, 0, 0))]
        for found, dtlb, itlb in (
            (of_intel, Shape(64, 4, 4096), Shape(256, 8, 4096)),
            (of_amd, Shape(72, 72, 4096), Shape(64, 4, 4096)),
        ):
            buffers = Dump("some", read_xml(as_xml(found))).buffers()
            self.assertEqual(buffers, {"dtlb": dtlb, "itlb": itlb})

    def test_what_is_no_processor_of_these(self) -> None:
        for vendor in some((0, 0x6F677948)):
            answers = [(0, 0, (1, vendor, 0, 0)), (1, 0, (SKYLAKE, 0, 0, 0))]
            self.assertIsNone(Dump("some", read_xml(as_xml(answers))).model())
        self.assertIsNone(Dump("none", ()).model())


class Check(InFolder):
    def run_check(self, second: tuple[int, ...]) -> subprocess.CompletedProcess[str]:
        folder = Path(self.folder) / "tests/cputestdata"
        folder.mkdir(parents=True, exist_ok=True)
        (folder / "x86_64-cpuid-some.xml").write_text(as_xml(rows(second)), encoding="ascii")
        command = [sys.executable, str(ROOT / "checks/machines"), str(self.folder)]
        return subprocess.run(command, capture_output=True, text=True)

    def test_a_processor_with_another_second_level(self) -> None:
        done = self.run_check(SECOND)
        self.assertEqual((done.returncode, done.stderr), (0, ""), done.stdout)
        self.assertIn("skl: 1 processor; the third level of some\n", done.stdout)
        self.assertIn("zen4: no answers of such a processor are in these sources\n", done.stdout)
        done = self.run_check((0x43, 0x01C0003F, 0x3FF, 0))
        self.assertEqual(done.returncode, 1)
        self.assertIn("FAILED  skl, some: l2: ", done.stdout)

    def test_a_folder_with_none(self) -> None:
        command = [sys.executable, str(ROOT / "checks/machines"), str(self.folder)]
        done = subprocess.run(command, capture_output=True, text=True)
        self.assertEqual(done.returncode, 1)
        self.assertIn("neither tests/hwloc/x86 nor tests/cputestdata nor ", done.stderr)
