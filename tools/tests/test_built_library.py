"""c/build and the library that tools/count takes where nothing is proved or installed. The
toolchain is one of sh, and c/build where only its words count."""

from __future__ import annotations

import os
import shutil
import subprocess
import sys
from pathlib import Path

from tests.counted import Counted
from tests.fake_kit import PATIENCE, WithFakeKit
from tests.support import ROOT, needs_library

BUILD = """#!/bin/sh
echo "$@" >>"{here}/builds"
[ ! -e "{here}/faulty" ] || {{ cat "{here}/faulty" >&2; exit 1; }}
cp "$2" "$1/libpapi.so.7.0"
"""
PROVED = "checkout/crates/papi_c/out/libpapi_c.a"
NOT_PROVED = "count: the proved library is not built: "
CALL = """
import sys
sys.argv[0] = "count"
from parts.command import end_with
from parts.unproved.built_library import built_library
end_with("count", lambda: print(built_library()))
"""


class Build(WithFakeKit):
    """c/build itself, up to where it needs a compiler."""

    def build(self, *words: str, **variables: str) -> tuple[int, str]:
        heap = self.write("heap.a", "")
        variables = {"CC": "false", "KISTALUB_HEAP": heap, **variables}
        status, _, said = self.call(*words, program="c/build", **variables)
        return status, said

    def test_without_a_proved_library_it_takes_an_unproved_one_and_says_so(self) -> None:
        taken = (
            "build: the proved library is not built: taking the same code unproved "
            "(it is proved by: cd crates/papi_c && rt lib)\n"
        )
        status, said = self.build("built")
        self.assertEqual((status, len(self.kept("libpapi_c.a")), self.compiled()), (1, 1, 1))
        self.assertTrue(said.endswith(taken), said)
        self.assertIn("build: the proved library is not built: compiling the code unproved", said)
        self.assertEqual((self.build("built"), self.compiled()), ((1, taken), 1))

    def test_a_proved_library_goes_before_it(self) -> None:
        self.write(PROVED, "")
        self.assertEqual((self.build("built"), self.compiled()), ((1, ""), 0))

    def test_a_library_that_is_named(self) -> None:
        archive = self.write("archive.a", "")
        self.assertEqual((self.build("built", archive), self.compiled()), ((1, ""), 0))
        said = (
            "build: no such file: nowhere.a "
            "(c/archive proves and builds crates/papi_c/out/libpapi_c.a)\n"
        )
        self.assertEqual((self.build("built", "nowhere.a"), self.compiled()), ((1, said), 0))

    def test_what_can_not_be_compiled(self) -> None:
        said = (
            "build: the proved library is not built: nothing is compiled with KISTALUB_COMPILE=0\n"
        )
        self.assertEqual(self.build("built", KISTALUB_COMPILE="0"), (127, said))


class BuiltLibrary(WithFakeKit):
    def setUp(self) -> None:
        super().setUp()
        self.script("checkout/c/build", BUILD.format(here=self.folder))
        self.environment["PYTHONPATH"] = str(self.checkout / "tools")

    def library(self, **variables: str) -> tuple[int, str, str]:
        done = subprocess.run(
            [sys.executable, "-B", "-c", CALL],
            capture_output=True,
            text=True,
            cwd=self.folder,
            env={**self.environment, **variables},
            timeout=PATIENCE,
        )
        return done.returncode, done.stdout.rstrip("\n"), done.stderr

    def built(self) -> int:
        path = self.folder / "builds"
        return len(path.read_text().splitlines()) if path.exists() else 0

    def test_it_is_built_once_and_kept(self) -> None:
        status, folder, said = self.library()
        self.assertEqual((status, Path(folder).parent), (0, self.cache))
        (archive,) = self.kept("libpapi_c.a")
        self.assertEqual(Path(folder, "libpapi.so.7.0").read_text(), archive.read_text())
        self.assertIn(f"{NOT_PROVED}compiling the code unproved", said)
        self.assertIn(f"{NOT_PROVED}counted with the same code unproved", said)
        self.assertEqual((self.library(), self.built(), self.compiled()), ((0, folder, ""), 1, 1))

    def test_it_is_said_once_a_day(self) -> None:
        folder = self.library()[1]
        Path(folder, "said-on").write_text("2026-01-01\n")
        for said in (
            "counted with the same code unproved (it is proved by: cd crates/papi_c && rt lib)\n",
            "",
        ):
            self.assertEqual(self.library(), (0, folder, said and NOT_PROVED + said))

    def test_a_proved_library_takes_its_place(self) -> None:
        unproved = self.library()[1]
        self.write(PROVED, "proved\n")
        status, folder, said = self.library()
        self.assertEqual(
            (status, said, Path(folder, "libpapi.so.7.0").read_text()), (0, "", "proved\n")
        )
        self.assertNotEqual(folder, unproved)

    def test_a_change_of_what_it_is_made_of(self) -> None:
        self.write(PROVED, "")
        folders = [self.library()[1]]
        for name in (
            "c/whole_file.c",
            "c/calls.h",
            "include/papi.h",
            PROVED.removeprefix("checkout/"),
            "../kit/KIT-ID",
        ):
            self.write(f"checkout/{name}", "changed\n")
            folders.append(self.library()[1])
        folders += [self.library(CFLAGS="-g")[1], self.library(CC="other")[1]]
        self.assertEqual((len(set(folders)), self.built()), (8, 8))
        self.assertEqual(len(list(self.cache.glob("library-*"))), 4)

    def test_what_can_not_be_built(self) -> None:
        self.write("faulty", "build: no compiler\n")
        self.assertEqual(self.library()[0], 1)
        self.assertEqual(self.library(), (1, "", "count: build: no compiler\n"))
        self.assertEqual(self.left(), ["built.lock", "library.lock"])

    def test_what_can_not_be_compiled(self) -> None:
        said = (
            f"{NOT_PROVED}nothing is compiled with KISTALUB_COMPILE=0\n"
            "count: there is no library to count with (--library names its folder)\n"
        )
        self.assertEqual((self.library(KISTALUB_COMPILE="0"), self.built()), ((1, "", said), 0))


@needs_library
class CountWithout(Counted):
    """tools/count in a checkout where no library is installed and none is named."""

    PROGRAM = """
        int main(void) {
            long long counts[1];
            int set = made("PAPI_BR_INS");
            if (PAPI_start(set)) return 1;
            loop(100);
            if (PAPI_stop(set, counts)) return 1;
            printf("%d\\n", counts[0] >= 100 && counts[0] < 200);
            return 0;
        }
    """

    def setUp(self) -> None:
        super().setUp()
        self.checkout = self.folder / "checkout"
        for name in ("tools/parts", "tools/valgrind", "examples", "bin"):
            shutil.copytree(ROOT / name, self.checkout / name)
        shutil.copy(ROOT / "tools/count", self.checkout / "tools/count")
        (self.checkout / "crates/papi_c/out").mkdir(parents=True)
        (self.checkout / "include").mkdir()
        (self.checkout / "crates/papi_c/out/libpapi_c.a").touch()
        (self.checkout / "c").mkdir()
        build = self.checkout / "c/build"
        build.write_text(
            f'#!/bin/sh\necho "$@" >>"{self.folder}/builds"\ncp -P "{self.library}"/* "$1"\n'
        )
        build.chmod(0o755)

    def counted(self, program: str, **variables: str) -> tuple[int, str, str]:
        done = subprocess.run(
            [str(self.checkout / "tools/count"), program],
            capture_output=True,
            text=True,
            env={**os.environ, "XDG_CACHE_HOME": str(self.folder / "cache"), **variables},
        )
        return done.returncode, done.stdout, done.stderr

    def test_the_library_is_built_when_a_program_is_linked_with_it(self) -> None:
        program = self.compile(self.PROGRAM)
        for _ in range(2):
            self.assertEqual(self.counted(program), (0, "1\n", ""))
        self.assertEqual(len((self.folder / "builds").read_text().splitlines()), 1)

    def test_it_is_not_built_for_another_program(self) -> None:
        self.assertEqual(
            self.counted(self.compile(self.PROGRAM), LD_LIBRARY_PATH=self.library), (0, "1\n", "")
        )
        inside = self.compile(self.PROGRAM, f"{self.library}/libkistalub.a")
        self.assertEqual(self.counted(inside), (0, "1\n", ""))
        self.counted("true")  # it may fail here, where there is no program papi
        self.assertFalse((self.folder / "builds").exists())
