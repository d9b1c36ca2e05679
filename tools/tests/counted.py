"""Programs over the library for C, for tests that count them by tools/count."""

from __future__ import annotations

import subprocess

from tests.support import ROOT, TOOLS, InFolder, built_library

HEAD = """
#include <papi.h>
#include <stdio.h>
#include <stdlib.h>
static int made(const char *name) {
    int set = PAPI_NULL;
    if (PAPI_library_init(PAPI_VER_CURRENT) != PAPI_VER_CURRENT || PAPI_create_eventset(&set) || PAPI_add_named_event(set, name)) exit(9);
    return set;
}
static void loop(long turns) { __asm__ volatile("1: dec %0\\n jnz 1b" : "+r"(turns) : : "cc"); }
"""


class Counted(InFolder):
    library: str

    @classmethod
    def setUpClass(cls) -> None:
        cls.library = str(built_library())

    def compile(self, text: str, *words: str) -> str:
        """A program over the shared library."""
        source, program = self.write("program.c", HEAD + text), str(self.folder / "program")
        words = words or (f"-L{self.library}", "-lpapi")
        subprocess.run(
            ["cc", "-O1", f"-I{ROOT / 'include'}", "-o", program, source, *words, "-lpthread"],
            check=True,
        )
        return program

    def count(self, *words: str, text: str = "") -> subprocess.CompletedProcess[str]:
        """The last --library is the one that is taken."""
        return subprocess.run(
            [str(TOOLS / "count"), "--library", self.library, *words], input=text,
            capture_output=True, text=True,
        )
