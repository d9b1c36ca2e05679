"""PAPI's own Fortran tests over the library, as the C tests are built and run in `papi_ctests`. For
`papi_programs`."""

from __future__ import annotations

import os
import shutil
import subprocess
from pathlib import Path

from papi_ctests import Tests

# A line of these tests has the name of its file, so it may pass the 72 columns of the fixed form.
FORTRAN_FLAGS = ["-w", "-fopenmp", "-fallow-argument-mismatch", "-ffixed-line-length-132"]
SUPPORT = ("test_utils", "do_loops")
UTILITIES = "ftests_util.F"


def fortran_compiler() -> str:
    return os.environ.get("FC", "gfortran")


class FortranTests(Tests):
    """The tests of `ftests`. They are copied into the folder and compiled there, which keeps the
    names of their files short."""

    def names(self) -> list[str]:
        return sorted(file.name for file in (self.source / "ftests").glob("*.F"))

    def _compile_fortran(self, words: list[str]) -> str:
        done = subprocess.run(
            [fortran_compiler(), *FORTRAN_FLAGS, *words], cwd=self.place, capture_output=True,
            text=True,
        )
        lines = done.stderr.splitlines() or ["the compiler says nothing"]
        return (
            "" if done.returncode == 0
            else next((line for line in lines if "Error" in line or "undefined" in line), lines[0])
        )

    @property
    def place(self) -> Path:
        """Where the sources are copied to. The programs are made beside it."""
        return self.folder / "sources"

    def build_support(self) -> str:
        self.place.mkdir()
        for file in [
            *(self.source / "ftests").glob("*.F"), *(self.source / "testlib").glob("*.[Fh]"),
        ]:
            shutil.copy(file, self.place)
        for part in SUPPORT:
            why = self._compile(
                [
                    *self.words[:1], *self.includes, "-c", self.source / f"testlib/{part}.c", "-o",
                    self.place / f"{part}.o",
                ]
            )
            if why:
                return f"{part}: {why}"
        return self._compile_fortran([self.words[0], "-c", UTILITIES, "-o", "ftests_util.o"])

    def build(self, name: str) -> str:
        objects = ["ftests_util.o", *(f"{part}.o" for part in SUPPORT)]
        return self._compile_fortran(
            [self.words[0], name, *objects, *self.words[1:], "-o", str(self.folder / name)]
        )
