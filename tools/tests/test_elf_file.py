"""The libraries that a program's loader would find, out of its file: beside what the loader itself
lists."""

from __future__ import annotations

import os
import re
import subprocess
import unittest
from pathlib import Path

from parts.elf_file import libraries_of, read_elf
from tests.support import InFolder, needs_command

LISTED = re.compile(r"^\t(?:\S+ => )?(/\S+) \(", re.MULTILINE)


class Files(unittest.TestCase):
    def test_what_is_no_program(self) -> None:
        self.assertIsNone(read_elf(Path(__file__)))
        self.assertIsNone(read_elf(Path("/none")))
        self.assertEqual(list(libraries_of(Path(__file__), {})), [])


@needs_command("cc", "a C compiler")
class Searches(InFolder):
    """A program that needs `one`, which needs `two`. Each of two folders has both."""

    def build(self, *words: str) -> Path:
        for name in ("first", "second"):
            (self.folder / name).mkdir(exist_ok=True)
            for library, needed in (
                ("two", ()),
                ("one", (f"-L{self.folder / name}", "-Wl,--no-as-needed", "-ltwo")),
            ):
                source = self.write(f"{library}.c", f"int {library};")
                subprocess.run(
                    [
                        "cc",
                        "-shared",
                        "-fPIC",
                        "-o",
                        str(self.folder / name / f"lib{library}.so"),
                        source,
                        *needed,
                    ],
                    check=True,
                )
        program = self.folder / "program"
        text = "extern int one; int main(void) { return one; }"
        subprocess.run(
            [
                "cc",
                "-o",
                str(program),
                self.write("program.c", text),
                f"-L{self.folder / 'first'}",
                "-lone",
                f"-Wl,-rpath-link,{self.folder / 'first'}",
                *words,
            ],
            check=True,
        )
        return program

    def check(self, program: Path, given: str, count: int) -> None:
        """As the loader lists them, which is run for that."""
        environment = {**os.environ, "LD_LIBRARY_PATH": given}
        listed = subprocess.run(
            [str(program)],
            env={**environment, "LD_TRACE_LOADED_OBJECTS": "1"},
            capture_output=True,
            text=True,
            check=True,
        ).stdout
        found = [str(each.path.resolve()) for each in libraries_of(program, environment)][1:]
        wanted = [os.path.realpath(path) for path in LISTED.findall(listed)]
        self.assertEqual(sorted(found), sorted(wanted))
        self.assertEqual(sum(str(self.folder) in path for path in found), count)

    def test_the_environments_folders(self) -> None:
        program = self.build()
        self.check(program, f"{self.folder}/second:{self.folder}/first", 2)
        self.check(program, "", 0)

    def test_the_programs_own_folders(self) -> None:
        """Those of RUNPATH come behind the environment's, and are not for the libraries' own needs;
        those of the older RPATH come first, and are."""
        for tags, count in (("--enable-new-dtags", 1), ("--disable-new-dtags", 2)):
            program = self.build("-Wl,-rpath,$ORIGIN/first", f"-Wl,{tags}")
            self.check(program, "", count)
            self.check(program, str(self.folder / "second"), 2)
