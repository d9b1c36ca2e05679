"""Programs without a library, whose instructions are counted by hand, for tests that count them as
a whole."""

from __future__ import annotations

import json
import shutil
import subprocess
import unittest
from pathlib import Path
from typing import Any

from tests.support import PROGRAM, TOOLS, InFolder

EXIT = "mov $60, %eax\n mov ${}, %edi\n syscall\n"  # 3 instructions
LOOP = "mov ${}, %ecx\n 1: dec %ecx\n jnz 1b\n"  # 1 and twice so many

# Functions that are entered and left in different ways: by a jump to another one, within a call of
# the same one, and by a jump out, as longjmp does. `again` first does what is put there.
WAYS = """
    tail: nop
        jmp plain
    again: {first}dec %ebx
        jz 2f
        call again
    2:  ret
    leaves: call inner
        ret
    inner: mov %rdx, %rsp
        jmp *%rax
"""

needs_papi = unittest.skipUnless(
    PROGRAM.exists() or shutil.which("rt"), "crates/papi/out/papi is not built"
)


def functions(*names: str) -> str:
    """Symbols of functions, of which each ends where the next one begins."""
    ends = [*names[1:], "."]
    return "".join(
        f".type {name}, @function\n.size {name}, {end} - {name}\n"
        for name, end in zip(names, ends)
    )


class Whole(InFolder):
    def assemble(self, name: str, text: str) -> str:
        """A static program of these instructions. Valgrind reads symbols if there are data too."""
        text += "\n.data\n.quad 1\n"
        source, program = self.write(f"{name}.s", f".globl _start\n_start:\n{text}"), str(
            self.folder / name
        )
        subprocess.run(
            ["cc", "-nostdlib", "-static", "-Wl,--build-id=none", "-o", program, source], check=True
        )
        return program

    def compile(self, name: str, text: str, *words: str, compiler: str = "cc") -> str:
        suffix = ".cc" if compiler.endswith("++") else ".c"
        source, program = self.write(name + suffix, text), str(self.folder / name)
        subprocess.run([compiler, "-O1", "-o", program, source, "-lpthread", *words], check=True)
        return program

    def address_of(self, program: str, symbol: str) -> int:
        listed = subprocess.run(["nm", program], capture_output=True, text=True, check=True).stdout
        return next(
            int(line.split()[0], 16) for line in listed.splitlines() if line.endswith(f" {symbol}")
        )

    def strip(self, program: str) -> None:
        subprocess.run(["strip", program], check=True)

    def count(self, *words: str) -> subprocess.CompletedProcess[str]:
        return subprocess.run(
            [str(TOOLS / "count"), *words], capture_output=True, text=True, cwd=self.folder
        )

    def counted(self, *words: str, status: int = 0) -> Any:
        """The JSON of a count that has nothing to say but its table."""
        to = self.folder / "counts.json"
        done = self.count("--json", str(to), "-o", str(self.folder / "table"), *words)
        self.assertEqual((done.stdout, done.stderr, done.returncode), ("", "", status))
        return json.loads(to.read_text(encoding="utf-8"))

    def table(self) -> str:
        return Path(self.folder / "table").read_text(encoding="utf-8")
