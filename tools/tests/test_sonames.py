"""Programs that were linked with PAPI 7.1 or 7.2 run over the library as they are."""

from __future__ import annotations

import os
import subprocess

from tests.support import ROOT, InFolder, built_library, needs_command, needs_library

PROGRAM = """
#include "papi.h"
#include <stdio.h>
int main(void) {
    int version = PAPI_VERSION_NUMBER(7, MINOR, 0, 0);
    printf("%d %d\\n", PAPI_library_init(version) == version, PAPI_get_opt(PAPI_LIB_VERSION, NULL));
}
"""
STUB = "int PAPI_library_init(int v) { return -v; } int PAPI_get_opt(int o, void *p) { return 0; }"


@needs_library
@needs_command("cc", "a C compiler")
class Sonames(InFolder):
    def test_each_is_found(self) -> None:
        """They are linked with a library of that soname, which is not there when they run."""
        for minor in range(3):
            soname = f"libpapi.so.7.{minor}"
            stub = str(self.folder / soname)
            link = ["-shared", "-fPIC", f"-Wl,-soname,{soname}", "-o", stub]
            subprocess.run(["cc", *link, self.write("stub.c", STUB)], check=True)
            source = self.write("program.c", PROGRAM.replace("MINOR", str(minor)))
            program = str(self.folder / "program")
            words = ["cc", f"-I{ROOT / 'include'}", source, stub, "-o", program]
            subprocess.run(words, check=True)
            os.unlink(stub)
            environment = {
                **os.environ,
                "LD_LIBRARY_PATH": str(built_library()),
                "KISTALUB_UNIT": str(ROOT / "examples/lab.unit"),
            }
            done = subprocess.run([program], env=environment, capture_output=True, text=True)
            said = (done.returncode, done.stdout, done.stderr)
            self.assertEqual(said, (0, f"1 {7 << 24}\n", ""), soname)
