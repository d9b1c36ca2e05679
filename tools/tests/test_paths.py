"""Recordings and counts depend on no path, user or variable around the program."""

from __future__ import annotations

import os
import shutil
import subprocess
import unittest
from pathlib import Path
from typing import Callable, Iterator

from parts import valgrind
from tests.counted import Counted
from tests.support import ROOT, InFolder, needs_command, needs_library, some

LENGTHS = (1, 7, 33, 60, 200)  # bytes of the last name of a path
NOBODY = 65534
# It reads and writes its stack, its heap and its table, each of several pages.
PROGRAM = """
#include <stdio.h>
#include <stdlib.h>
#include <string.h>
static char table[9000];
int main(void) {
    char local[5000], *heap = malloc(100000);
    long sum = 0;
    memset(local, 1, sizeof local);
    memset(heap, 2, 100000);
    for (int i = 0; i < 20000; i++) sum += heap[i] * local[i % 5000] + table[i % 9000]++;
    printf("%ld\\n", sum);
    free(heap);
    return 0;
}
"""
COUNTED = """
int main(void) {
    int set = made("PAPI_L1_DCM");
    long long value;
    char local[5000], *heap = malloc(100000);
    if (PAPI_start(set)) return 8;
    for (int i = 0; i < 100000; i++) heap[i] = local[i % 5000] = (char)i;
    if (PAPI_stop(set, &value)) return 7;
    printf("%lld %d\\n", value, heap[99999]);
    return 0;
}
"""


class Places(InFolder):
    def cache(self) -> Path:
        """A folder for caches, in which the tool is built once for all names of it."""
        place = self.folder / "cache"
        place.mkdir(exist_ok=True)
        return place

    def named(self, place: Path, length: int) -> str:
        """Another name of a folder, the last part of which has so many bytes."""
        name = self.folder / ("n" * length)
        if not name.is_symlink():
            name.symlink_to(place)
        return str(name)

    def environments(self) -> Iterator[tuple[tuple[int, ...], dict[str, str]]]:
        """Four lengths, and the variables that have them: each length in each place, and in no two
        environments beside the same other one."""
        for n, home in enumerate(LENGTHS):
            caches, place, variables = (
                LENGTHS[(n * step + 1) % len(LENGTHS)] for step in (2, 3, 4)
            )
            yield (home, caches, place, variables), {
                "PATH": os.environ["PATH"], "HOME": "/" + "h" * (home - 1),
                "XDG_CACHE_HOME": self.named(self.cache(), caches),
                "TMPDIR": self.named(self.folder, place),
                **{f"V{number}": "v" * number for number in range(variables)},
            }

    def same(self, found: Callable[[dict[str, str]], bytes]) -> None:
        wanted = b""
        for lengths, environment in self.environments():
            came = found(environment)
            wanted = wanted or came
            self.assertTrue(came and came == wanted, lengths)


def installed(place: Path) -> Path:
    """What records programs, as a prefix has it, with no link to this checkout."""
    (place / "tools").mkdir(parents=True)
    for name in ("tools/record", "tools/parts", "tools/valgrind", "tools/processors", "bin/hints"):
        copy = shutil.copytree if (ROOT / name).is_dir() else shutil.copy2
        copy(ROOT / name, place / name)
    shutil.copytree(ROOT / "examples", place / "examples", ignore=lambda _, names: [
        name for name in names if not name.startswith("recorded.")])
    return place / "tools/record"


@needs_command("valgrind", "valgrind")
@needs_command("cc", "a C compiler")
class Recorded(Places):
    def setUp(self) -> None:
        super().setUp()
        self.folder.chmod(0o755)
        self.program = str(self.folder / "program")
        source = self.write("program.c", PROGRAM)
        subprocess.run(["cc", "-O1", "-o", self.program, source], check=True)

    def record(self, environment: dict[str, str], record: Path = ROOT / "tools/record",
               user: int | None = None) -> bytes:
        done = subprocess.run([str(record), self.program], env=environment, user=user,
                              capture_output=True, cwd="/")
        self.assertEqual((done.returncode, done.stdout[:8]), (0, b"# loaded"), done.stderr)
        return done.stdout

    def test_variables_and_the_folder_of_caches(self) -> None:
        self.same(self.record)

    def test_the_folder_of_the_programs(self) -> None:
        base = {"PATH": os.environ["PATH"], "HOME": "/", "XDG_CACHE_HOME": str(self.cache())}
        wanted = self.record(base)
        for length in some(LENGTHS):
            record = installed(self.folder / ("p" * length))
            self.assertTrue(self.record(base, record) == wanted, length)

    @unittest.skipUnless(os.geteuid() == 0, "only root can be another user")
    def test_another_user(self) -> None:
        base = {"PATH": "/usr/bin:/bin", "HOME": "/", "XDG_CACHE_HOME": str(self.cache())}
        record = installed(self.folder / "prefix")
        wanted = self.record(base, record)
        self.cache().joinpath("theirs").mkdir()
        self.cache().joinpath("theirs").chmod(0o777)
        theirs = {**base, "XDG_CACHE_HOME": str(self.cache() / "theirs")}
        self.assertTrue(self.record(theirs, record, NOBODY) == wanted)


@needs_command("valgrind", "valgrind")
@needs_command("cc", "a C compiler")
@needs_library
class CountedPlaces(Places, Counted):
    def test_variables_and_folders(self) -> None:
        program = self.compile(COUNTED)

        def counted(environment: dict[str, str], library: str = self.library) -> bytes:
            words = [str(ROOT / "tools/count"), "--library", library, program]
            done = subprocess.run(words, env=environment, capture_output=True, cwd="/")
            self.assertEqual(done.returncode, 0, done.stderr)
            return done.stdout

        self.same(counted)
        base = dict(self.environments().__next__()[1])
        wanted = counted(base)
        for length in some(LENGTHS):
            copy = self.folder / ("l" * length)
            shutil.copytree(self.library, copy, symlinks=True)
            self.assertEqual(counted(base, str(copy)), wanted, length)


if __name__ == "__main__":
    unittest.main()
