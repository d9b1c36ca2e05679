"""A program that is looked at: its functions are those of its file, and nothing runs it but what
counts it."""

from __future__ import annotations

import subprocess
import unittest

from parts.symbols import read_functions
from tests.support import InFolder, needs_command, run_tool

# A loader that loads nothing: it writes a letter, and ends.
LOADER = """
static long call(long number, long a, long b, long c) {
    long answer;
    __asm__ volatile("syscall" : "=a"(answer) : "a"(number), "D"(a), "S"(b), "d"(c) : "rcx", "r11", "memory");
    return answer;
}
void _start(void) {
    enum { WRITE = 1, OPEN = 2, EXIT = 231, WRITE_ONLY = 1, CREATE = 64, APPEND = 1024 };
    long file = call(OPEN, (long)PLACE, WRITE_ONLY | CREATE | APPEND, 0600);
    call(WRITE, file, (long)"x", 1);
    call(EXIT, 0, 0, 0);
}
"""
FUNCTIONS = """
__asm__(".text\\n.globl plain\\nplain: ret\\n.size plain, . - plain\\n.globl sizeless\\nsizeless: ret\\n");
static int first(void) { return 1; }
__attribute__((used)) static int (*resolver(void))(void) { return first; }
int chosen(void) __attribute__((ifunc("resolver")));
int whole(void) { return 2; }
int also(void) __attribute__((alias("whole")));
int variable = 1;
int main(void) { return chosen() + whole() + also(); }
"""


@needs_command("cc", "a C compiler")
class Programs(InFolder):
    def compiled(self, name: str, text: str, *words: str) -> str:
        program = str(self.folder / name)
        subprocess.run(
            ["cc", "-O0", "-o", program, self.write(f"{name}.c", text), *words], check=True
        )
        return program

    def test_functions(self) -> None:
        """One without a type, one that is chosen when the program is loaded, and of two names of
        one place the first. What has no size and what is no function is none."""
        found = {each.name: each for each in read_functions(self.compiled("some", FUNCTIONS))}
        self.assertLessEqual({"plain", "chosen", "also", "first", "main"}, set(found))
        for name in ("sizeless", "variable", "whole", "resolver"):
            self.assertNotIn(name, found)
        self.assertEqual(found["plain"].size, 1)

    @needs_command("valgrind", "valgrind")
    def test_what_counts_a_program_runs_it_once(self) -> None:
        """Its loader is asked for nothing, as if it listed libraries."""
        place = self.folder / "runs"
        words = ("-static-pie", "-nostdlib", "-fno-stack-protector", f'-DPLACE="{place}"')
        loader = self.compiled("loader", LOADER, *words)
        program = self.compiled(
            "program", "int main(void) { return 0; }", f"-Wl,--dynamic-linker={loader}"
        )
        for tool, *more in (
            ("count",),
            ("count", "--events", "PAPI_TOT_INS"),
            ("count", "--json", str(self.folder / "table")),
            ("record", "-o", str(self.folder / "stream")),
        ):
            place.unlink(missing_ok=True)
            run_tool(tool, *more, program)
            self.assertEqual(place.read_text() if place.exists() else "", "x", (tool, more))

    def test_what_is_refused_is_not_run(self) -> None:
        place = self.folder / "runs"
        words = ("-static-pie", "-nostdlib", "-fno-stack-protector", f'-DPLACE="{place}"')
        program = self.compiled("program", LOADER, *words)
        for tool, *more in (
            ("count", "--events", "NO_SUCH_EVENT"),
            ("count", "--unit", "/none"),
            ("record", "--from", "none"),
        ):
            done = run_tool(tool, *more, program)
            self.assertNotEqual((done.returncode, done.stderr), (0, ""))
            self.assertFalse(place.exists(), (tool, more))


if __name__ == "__main__":
    unittest.main()
