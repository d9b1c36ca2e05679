"""Names and texts from outside: of words, files, folders, and of what a program says of itself.
None is opened that is not a regular file, and each is shown on one line without control
characters."""

from __future__ import annotations

import os
import signal
import struct
import subprocess
import unittest
from pathlib import Path
from types import FrameType
from typing import Sequence

from formats.files import Unread, content, opened
from parts.command import Fault, read_bytes, read_found
from parts.elf_file import HEAD, MARK, libraries_of
from parts.report.source_lines import places_of, source_lines
from parts.profile import Bucket
from parts.symbols import read_functions
from tests.support import TOOLS, InFolder, all_of, needs_command, needs_program, run_tool

SECONDS = 30
ODD = "a\x1b[31m\nb\x07\u202e\x9b"
STRETCHES = (
    "int first_name_of_thirty_characters(int x) { return x + 1; }\n"
    "int main(void) { return first_name_of_thirty_characters(0); }\n"
)
# A tool, and words in which a name is wrong.
WRONG = (
    ("compare", ODD, ODD),
    ("count", "--limit-of-none", ODD),
    ("count", ODD),
    ("make_map", ODD),
    ("make_map", "--stream", ODD, "/bin/true"),
    ("make_unit", ODD),
    ("plot", ODD),
    ("preset_lines", ODD),
    ("preset_rows", ODD),
    ("record", "-o", f"{ODD}/{ODD}", "/bin/true"),
    ("record", ODD),
    ("report", ODD, ODD, ODD, "--unit-of-none"),
)
# What the program itself says of a name has a line of the name.
LESS_ODD = ODD.replace("\n", "")
OF_PROGRAM = (("conflict", "-U", LESS_ODD, "A"), ("report", "-U", LESS_ODD, LESS_ODD))


def end_of_patience(number: int, frame: FrameType | None) -> None:
    raise TimeoutError


class Outside(InFolder):
    def setUp(self) -> None:
        super().setUp()
        before = signal.signal(signal.SIGALRM, end_of_patience)
        self.addCleanup(signal.signal, signal.SIGALRM, before)
        self.addCleanup(signal.alarm, 0)
        signal.alarm(SECONDS)

    def fifo(self, name: str) -> str:
        os.mkfifo(self.folder / name)
        return str(self.folder / name)

    def compiled(self, source: str, *words: str) -> str:
        program = str(self.folder / "program")
        subprocess.run(
            ["cc", "-O0", *words, "-x", "c", "-", "-o", program], input=source, text=True,
            check=True,
        )
        return program


class Files(Outside):
    def test_only_regular_files_of_a_bounded_size_are_read(self) -> None:
        some = self.write("some", "1234")
        self.assertEqual(
            (content(some), content(Path(some), 4), read_found(some, 4)), (b"1234",) * 3
        )
        with self.assertRaisesRegex(Fault, f"^{some}: too large$"):
            read_found(some, 3)
        for name in (self.fifo("fifo"), "/dev/zero", str(self.folder)):
            with self.assertRaises(Unread):
                opened(name)
            with self.assertRaisesRegex(Fault, f"^{name}: not a regular file$"):
                read_found(name)
        with self.assertRaises(Unread):
            opened("a\0b")
        with self.assertRaisesRegex(Fault, "^/dev/zero: too large$"):
            read_bytes("/dev/zero", 1000)

    def test_what_a_person_names_may_be_a_pipe(self) -> None:
        self.write("rows", "PRESET,PAPI_TOT_INS,NOT_DERIVED,A\n")
        done = subprocess.run(
            [
                "sh", "-c", 'cat "$1" | "$0" /dev/stdin', str(TOOLS / "preset_rows"),
                str(self.folder / "rows"),
            ],
            capture_output=True,
            text=True,
        )
        self.assertEqual((done.returncode, done.stdout), (0, (self.folder / "rows").read_text()))

    @needs_command("cc", "a C compiler")
    def test_a_folder_of_libraries_with_fifos(self) -> None:
        program = self.compiled("int main(void) { return 0; }")
        self.fifo("libc.so.6")
        found = [
            each.path for each in libraries_of(Path(program), {"LD_LIBRARY_PATH": str(self.folder)})
        ]
        self.assertEqual([path.name for path in found][:2], ["program", "libc.so.6"])
        self.assertNotIn(self.folder, [path.parent for path in found[1:]])


class Shown(unittest.TestCase):
    def test_what_is_said_of_an_odd_name_is_one_line(self) -> None:
        self.check(WRONG)

    @needs_program
    def test_what_the_program_says_of_it_too(self) -> None:
        self.check(OF_PROGRAM)

    def check(self, calls: Sequence[Sequence[str]]) -> None:
        for name, *words in calls:
            with self.subTest(name=name, words=words):
                done = run_tool(name, *words)
                lines = done.stderr.split("\n")[:-1]
                said = [
                    line for line in lines if not line.startswith(("usage:", " ", "{", "hint: "))
                ]
                self.assertNotEqual(done.returncode, 0)
                self.assertTrue(all_of(done.stderr.split("\n"), str.isprintable), done.stderr)
                self.assertEqual((len(said), said[0][: len(name) + 2]), (1, f"{name}: "))


class Symbols(Outside):
    @needs_command("cc", "a C compiler")
    def test_a_name_with_a_line_of_its_own_is_one_function(self) -> None:
        """As `nm` prints it there would be one more."""
        program = Path(self.compiled(STRETCHES))
        name = b"first_name_of_thirty_characters"
        more = b"a\n0000000000000ff0 1000 T evil"
        before = program.read_bytes()
        program.write_bytes(before.replace(name + b"\0", more.ljust(len(name), b"_") + b"\0"))
        functions = read_functions(str(program))
        self.assertEqual(
            [each.name for each in functions if "evil" in each.name],
            ["a\n0000000000000ff0 1000 T evil_"],
        )
        program.write_bytes(before)
        self.assertEqual(
            [(each.address, each.size) for each in functions],
            [(each.address, each.size) for each in read_functions(str(program))],
        )
        program.write_bytes(before.replace(name + b"\0", more.ljust(len(name), b"_") + b"\0"))
        rows = run_tool("make_map", "--base", "0", str(program)).stdout.splitlines()
        self.assertEqual(
            [row.split(",")[1] for row in rows if "evil" in row],
            ["a_0000000000000ff0_1000_T_evil_"],
        )

    @needs_command("cc", "a C compiler")
    @needs_command("nm", "binutils")
    def test_the_functions_of_a_program_are_those_of_nm(self) -> None:
        for words in (("-static",), ("-g", "-pie"), ("-no-pie", "-Wl,--build-id=none")):
            program = self.compiled(STRETCHES, *words)
            told = subprocess.run(
                ["nm", "-S", "--defined-only", program], capture_output=True, text=True, check=True
            ).stdout
            wanted: dict[int, tuple[int, str]] = {}
            for address, size, kind, name in (
                row for line in told.splitlines() if len(row := line.split()) == 4
            ):
                if kind in "tTwWi" and int(size, 16):
                    wanted.setdefault(int(address, 16), (int(size, 16), name))
            found = [(each.address, each.size, each.name) for each in read_functions(program)]
            self.assertEqual(found, [(address, *wanted[address]) for address in sorted(wanted)])
            self.assertGreater(len(found), 1)

    def test_tables_that_are_nowhere(self) -> None:
        far = (1 << 64) - 1
        for place, size, count in ((far, 64, 9), (64, 64, 0xFFFF), (1 << 40, 0, 9), (0, 64, 2)):
            head = HEAD.pack(MARK, 2, 62, 0, far, place, 56, 3, size, count)
            (self.folder / "odd").write_bytes(
                head.ljust(64, b"\0") + struct.pack("<IIQQQQIIQQ", 0, 2, 4, 0, far, far, 0, 0, 0, 0)
            )
            self.assertEqual(read_functions(str(self.folder / "odd")), [])
            self.assertEqual(list(libraries_of(self.folder / "odd", {})), [])


class Source(Outside):
    def text_of(self, file: str, line: int = 1) -> str:
        return source_lines({4: ("f", file, line)}, [Bucket(4, 1)])[0].text

    def test_what_can_be_no_source_is_not_read(self) -> None:
        self.assertEqual(self.text_of(self.write("a.c", "int a;\n  int b;\n"), 2), "int b;")
        self.assertEqual(
            [self.text_of(self.write("a.c", "int a;"), line) for line in (1, 2, 1 << 40)],
            ["int a;", "", ""],
        )
        large = self.write("large.c", "int a;\n")
        os.truncate(large, 1 << 25)
        for name in (
            self.fifo("fifo.c"), "/dev/zero", "/etc/passwd", self.write("id_rsa", "secret"), large,
            str(self.folder), str(self.folder / "none.c"), "a\0.c",
        ):
            self.assertEqual(self.text_of(name), "", name)
        os.symlink("/dev/zero", self.folder / "zero.c")
        self.assertEqual(self.text_of(str(self.folder / "zero.c")), "")

    @needs_command("cc", "a C compiler")
    @needs_command("addr2line", "binutils")
    def test_a_program_whose_names_have_lines_is_told_of_no_place(self) -> None:
        source = self.write("here_is_some_name.c", STRETCHES)
        program = self.folder / "program"
        subprocess.run(["cc", "-g", "-no-pie", "-o", str(program), source], check=True)
        address = next(
            each.address for each in read_functions(str(program)) if each.name.startswith("first")
        )
        self.assertEqual(places_of(str(program), 0, [address])[address][2], 1)
        program.write_bytes(
            program.read_bytes().replace(b"here_is_some_name.c", b"a\n/etc/passwd:1\nb.c")
        )
        self.assertEqual(places_of(str(program), 0, [address, address + 4]), {})
