"""The hints of the scripts in bin/: a table of mistakes, and that the program's own lines and
status stay as they are."""

from __future__ import annotations

import os
import re
import shutil
import subprocess
import sys
import tempfile
import unittest
from pathlib import Path

from errors import _missing_file_hints
from formats.presets import SYMBOLS
from formats.scripts import CALLS, REGION_CALLS
from formats.texts import LONGEST, cut, plain
from hinting import hints_on
from tests.hint_cases import CASES, FILES, NO_LINE, Case
from tests.hint_edges import EDGES
from tests.support import PROGRAM, ROOT, InFolder, needs_libpfm4, needs_program, run_tool

HINTS = ROOT / "bin/hints"
FORMATS = ROOT / "docs/FORMATS.md"
PLACE = "crates/papi/out/papi"
EVERY = CASES + EDGES


def make_tree(folder: Path) -> Path:
    """A folder with the scripts and a place for the program, which no source is newer than. Gives
    the folder of the scripts."""
    (folder / PLACE).parent.mkdir(parents=True)
    (folder / "crates.txt").touch()
    os.utime(folder / "crates.txt", (0, 0))
    return Path(shutil.copytree(ROOT / "bin", folder / "bin"))


class Hints(InFolder):
    def put(self, case: Case) -> None:
        for name, text in {**FILES, **case.files}.items():
            self.write(name, text)

    def wanted(self, case: Case) -> str:
        here = os.path.realpath(self.folder)
        return "".join(f"hint: {hint}\n" for hint in case.hints).replace("{here}", here)

    def clear(self) -> None:
        for path in self.folder.iterdir():
            path.unlink()

    def test_each_case(self) -> None:
        """The hints alone, over what the program is to say."""
        self.addCleanup(os.chdir, os.getcwd())
        os.chdir(self.folder)
        for case in EVERY:
            with self.subTest(case.title):
                self.put(case)
                tool, *words = case.words.split()
                hints = hints_on(
                    f"bin/{tool}", case.status, tool, words,
                    [*case.said.splitlines(), *case.telling.splitlines()],
                )
                self.assertEqual(
                    "".join(f"hint: {plain(line)}\n" for line in hints), self.wanted(case)
                )
                self.clear()

    def test_as_the_scripts_start_them(self) -> None:
        """By a process of their own: a case of each status, with hints and without."""
        for case in {(case.status, not case.hints): case for case in EVERY}.values():
            with self.subTest(case.title):
                self.put(case)
                words = [
                    sys.executable, "-I", "-S", "-B", str(HINTS), "bin/" + case.words.split()[0],
                    str(case.status), *case.words.split(),
                ]
                lines = "".join(f"{text}\n" for text in (case.said, case.telling) if text)
                done = subprocess.run(
                    words, input=lines, capture_output=True, text=True, cwd=self.folder
                )
                status = 10 if NO_LINE in self.wanted(case) else 0
                self.assertEqual(
                    (done.stderr, done.stdout, done.returncode), ("", self.wanted(case), status)
                )
                self.clear()

    def test_a_script_with_the_name_of_a_stream(self) -> None:
        """The program says `stream 0` of the first stream too."""
        self.write("u", FILES["u"])
        self.write("stream 0", "0 creat\n")
        words = [
            sys.executable, "-I", "-S", "-B", str(HINTS), "papi_run", "2", "papi_run", "-U", "u",
            "stream 0",
        ]
        done = subprocess.run(
            words, input="papi: stream 0: line 1: unknown call\n", capture_output=True, text=True,
            cwd=self.folder,
        )
        self.assertEqual(
            done.stdout,
            'hint: stream 0:1: 0 creat\nhint: there is no call "creat" (near: create)\n',
        )

    @needs_program
    def test_each_case_of_the_program(self) -> None:
        """The program says what stands there. The scripts say that too, and then the hints: tried
        once for each tool and status, with hints and without."""
        by_script = {
            (case.words.split()[0], case.status, not case.telling, not case.hints): case
            for case in EVERY
        }.values()
        place = tempfile.TemporaryDirectory()
        self.addCleanup(place.cleanup)
        bin_of = make_tree(Path(place.name))
        (bin_of.parent / PLACE).symlink_to(PROGRAM)
        for case in EVERY:
            with self.subTest(case.title):
                self.put(case)
                tool, *words = case.words.split()
                bare = self.run_script(str(PROGRAM), tool, *words)
                self.assertEqual(
                    (bare.stderr, bare.returncode),
                    (case.said + "\n" * bool(case.said), case.status),
                )
                self.assertLessEqual(set(case.telling.splitlines()), set(bare.stdout.splitlines()))
                if case not in by_script:
                    self.clear()
                    continue
                script = (
                    [str(bin_of / tool)] if (bin_of / tool).exists()
                    else [str(bin_of / "papi"), tool]
                )
                with_hints = self.run_script(*script, *words)
                self.assertEqual(
                    (with_hints.stdout, with_hints.returncode), (bare.stdout, bare.returncode)
                )
                self.assertEqual(with_hints.stderr, bare.stderr + self.wanted(case))
                self.clear()

    def run_script(self, *words: str, **variables: str) -> subprocess.CompletedProcess[str]:
        return subprocess.run(
            words, capture_output=True, text=True, cwd=self.folder, env={**os.environ, **variables}
        )


class Scripts(InFolder):
    """The scripts in bin/ over a program of sh, whose outputs and status are chosen here."""

    def setUp(self) -> None:
        super().setUp()
        self.tool = str(make_tree(self.folder) / "papi_run")

    def program(self, *lines: str) -> None:
        path = self.write(PLACE, "\n".join(("#!/bin/sh", *lines, "")))
        os.chmod(path, 0o755)

    def call(self, words: str, **variables: str) -> tuple[int, bytes, bytes]:
        done = subprocess.run(
            ["/bin/sh", "-c", words], capture_output=True, cwd=self.folder,
            env={**os.environ, **variables},
        )
        return done.returncode, done.stdout, done.stderr

    def test_outputs_and_status_stay(self) -> None:
        self.program("printf 'a\\n\\nb\\n\\n'", "printf 'papi: \\377 x\\n\\n' >&2", "exit 3")
        self.assertEqual(self.call(f"{self.tool} s"), (3, b"a\n\nb\n\n", b"papi: \xff x\n\n"))

    def test_no_hints_where_they_are_not_wanted(self) -> None:
        self.program("echo 'papi: bad words' >&2", "exit 2")
        self.assertEqual(
            self.call(f"{self.tool} s", KISTALUB_HINTS="0"), (2, b"", b"papi: bad words\n")
        )
        self.assertIn(b"hint: -U UNIT is missing", self.call(f"{self.tool} s")[2])

    def test_silent_without_python(self) -> None:
        tools = self.folder / "tools"
        tools.mkdir()
        for name in ("dirname", "realpath", "find", "head", "cat", "sh"):
            (tools / name).symlink_to(str(shutil.which(name)))
        self.program("echo 'papi: bad words' >&2", "exit 2")
        self.assertEqual(
            self.call(f"{self.tool} s", PATH=str(tools)), (2, b"", b"papi: bad words\n")
        )

    def test_a_python_that_fails(self) -> None:
        self.program("echo 'papi: bad words' >&2", "exit 2")
        (self.folder / "bin/hints/formats/texts.py").write_text("this is no Python")
        self.assertEqual(self.call(f"{self.tool} s"), (2, b"", b"papi: bad words\n"))

    def test_outputs_that_take_nothing(self) -> None:
        self.program("echo 'papi: bad words' >&2", "exit 2")
        self.assertEqual(self.call(f"{self.tool} s 2>/dev/full")[0], 5)
        self.program("echo out || exit 5", "echo err >&2 || exit 5", "exit 2")
        self.assertEqual(self.call(f"{self.tool} s >&-")[0], 5)
        self.assertEqual(self.call(f"{self.tool} s 2>&-")[0], 5)
        self.assertEqual(self.call(f"{self.tool} s >/dev/full")[0], 5)

    def test_standard_input_is_the_programs(self) -> None:
        self.program("cat")
        self.assertEqual(self.call(f"echo in | {self.tool} s"), (0, b"in\n", b""))

    def test_links(self) -> None:
        self.program('echo "$@"')
        (self.folder / "link").symlink_to(self.tool)
        (self.folder / "other").symlink_to("link")
        for words in (
            "./link s t", f"{self.folder}/other s t", "PATH=.:$PATH; link s t",
            "cd bin; sh papi_run s t",
        ):
            self.assertEqual(self.call(words), (0, b"papi_run s t\n", b""), words)


class MissingFiles(InFolder):
    def test_a_folder_with_a_long_path_is_cut(self) -> None:
        folder = self.folder / ("a" * 200)
        folder.mkdir()
        self.assertEqual(
            _missing_file_hints(f"{folder}/unit"), [f'{str(folder)[:LONGEST]}.. has no file "unit"']
        )


class Lists(InFolder):
    def test_a_byte_that_is_no_text_is_shown_by_its_number(self) -> None:
        self.assertEqual(plain(b"a\xff\x80".decode("utf-8", "surrogateescape")), r"a\xff\x80")

    def test_a_text_is_cut_if_it_is_too_long(self) -> None:
        self.assertEqual(
            [cut("x" * length) for length in (LONGEST, LONGEST + 1)], ["x" * 100, "x" * 100 + ".."]
        )

    def test_calls_and_symbols_are_those_of_the_document(self) -> None:
        """The tables of the hints beside those of docs/FORMATS.md."""
        text = FORMATS.read_text(encoding="utf-8")
        def table(head: str) -> dict[str, tuple[str, ...]]:
            rows = text.partition(head)[2].partition("\n\n")[0].splitlines()[1:]
            cells = [[cell.strip() for cell in row.strip("|").split("|")] for row in rows]
            return {
                row[0].strip("`"): tuple(
                    re.findall(r"\b[A-Z]+\b", re.sub(r"\([^)]*\)", "", row[1]))
                )
                for row in cells
            }

        self.assertEqual(CALLS, table("| Call | Arguments | After `PAPI_OK` the reply has |\n"))
        self.assertEqual(REGION_CALLS, table("| Call | Arguments | What it does |\n"))
        symbols = text.partition("### Symbols\n")[2].partition("with the codes")[0]
        self.assertEqual(SYMBOLS, tuple(re.findall(r"`(PAPI_\w+)`", symbols)))
