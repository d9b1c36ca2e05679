"""checks/rows: how rows are read, which runs they have, and that each difference is seen."""

from __future__ import annotations

import os
import shutil
import subprocess
import unittest
from pathlib import Path

from row_files import ALL, K, NoRow, Row, blocks_of, read_row
from row_runs import Came, RowRun, agrees, expected, is_as_said, runs_of, shows_notes, with_notes
from running import Run
from tests.support import PROGRAM, ROOT, InFolder, needs_command

ROWS = ROOT / "checks/rows"
TESTS = Path(__file__).resolve().parent


def row_of(text: str) -> Row:
    row = read_row(text)
    assert row is not None
    return row


def run_rows(
    *words: str, program: Path = PROGRAM, **how: object
) -> subprocess.CompletedProcess[str]:
    command = [str(ROWS), "--program", str(program), *words]
    return subprocess.run(command, capture_output=True, text=True, **how)  # type: ignore


class Reading(unittest.TestCase):
    def test_a_script_has_its_replies_beside_it(self) -> None:
        row = row_of(
            "row A script.\nwords papi_run s\nscript\n  # none\n"
            "  2 times: 0 create -> PAPI_OK 0\n  3 stop 0   ->\n  3 run 2    -> PAPI_OK 2 0\n"
            "status 3\n"
        )
        self.assertEqual(
            row.contents(), {"s": b"# none\n0 create\n0 create\n3 stop 0   ->\n3 run 2\n"}
        )
        self.assertEqual(
            (row.out, row.status),
            ("2 0 create PAPI_OK 0\n3 0 create PAPI_OK 0\n5 3 run PAPI_OK 2 0\n", 3),
        )

    def test_lines_and_files(self) -> None:
        row = row_of(
            "row Lines.\nwords papi_run\n  2 times: t\n# a comment\nfile t\n  3 times: ab\\\n"
            "  c\nfile t\n  never seen\nout\n  x\nerr\n  y\\\nnotes\n  0 0 0 0x1"
        )
        self.assertEqual(
            (row.words, row.contents(), row.out, row.err, row.notes),
            (["papi_run t t"], {"t": b"abababc\n"}, "x\n", "y", "0 0 0 0x1\n"),
        )
        self.assertEqual(
            row_of("row Notes.\nwords papi_run --notes\nout\n  x\nnotes\n  0 0 0 0x1").out,
            "x\nnote 0 0 0 0x1\n",
        )

    def test_settings(self) -> None:
        row = row_of(
            "row All.\nwords a\nopening 2 fails\nt fails after k bytes\n"
            "u fails after all bytes\nreads give 7 bytes\nout takes k bytes\nerr takes 0 bytes\n"
            "for workers 1 4\nfor k from 2 to 3\nnotes unread"
        )
        self.assertEqual(
            (row.failing, row.faults, row.piece, row.out_room, row.err_room),
            ([2], [("t", K), ("u", ALL)], 7, K, 0),
        )
        self.assertEqual(
            (row.workers, list(row.numbers()), row.gives_notes), ([1, 4], [2, 3], False)
        )

    def test_what_is_no_line_of_a_row(self) -> None:
        for line in (
            "word x",
            "status 0 0",
            "status -1",
            "out takes few bytes",
            "opening x fails",
            "for k from 1",
            "for k below the length of notes",
            "for workers 1 x",
            "out x",
            "  x",
            "t fails after x bytes",
        ):
            with self.assertRaises(NoRow, msg=line) as raised:
                read_row(f"row One.\n{line}\n")
            self.assertEqual(str(raised.exception), line)
        with self.assertRaises(NoRow):
            read_row("words before the title\nrow One.")
        self.assertIsNone(read_row("# a comment alone\n"))


class Runs(unittest.TestCase):
    def test_each_list_of_words_number_of_workers_and_k(self) -> None:
        row = row_of(
            "row Runs.\nwords papi_run s\nor papi_run -U u s\nfor workers 1 3\n"
            "for k below the length of err\nerr\n  y\n"
        )
        self.assertEqual(
            list(runs_of(row)),
            [
                RowRun(words, k, workers)
                for words in row.words
                for workers in (1, 3)
                for k in (0, 1)
            ],
        )
        self.assertEqual(
            RowRun("papi_run -U u s", 0, 3).given(), ["papi_run", "--workers", "3", "-U", "u", "s"]
        )
        self.assertEqual(RowRun("").given(), [])

    def test_notes_are_shown_by_a_run_over_the_same_files(self) -> None:
        row = row_of("row Notes.\nwords papi_run s\n")
        self.assertTrue(shows_notes(row, ["papi_run", "s"]))
        for other, words in (
            (row, ["papi_run", "--notes", "s"]),
            (row, ["papi_encode", "A"]),
            (row, []),
            (row_of("row N.\nnotes unread"), ["papi_run", "s"]),
            (row_of("row N.\nout takes 0 bytes"), ["papi_run", "s"]),
            (row_of("row N.\nstatus 2"), ["papi_profil", "s"]),
        ):
            self.assertFalse(shows_notes(other, words), words)
        self.assertEqual(
            with_notes("papi_profil -U u -M m --thread 1 --index 0 --workers 2 s t".split()),
            "papi_run --notes -U u --workers 2 s t".split(),
        )
        self.assertEqual(with_notes("papi_run -U -M s".split()), "papi_run --notes -U -M s".split())

    def test_what_agrees(self) -> None:
        for given, came, wanted in (
            ("a\n", "a\n", True),
            ("a\n", "a", False),
            ("a...\n", "abc\n", True),
            ("a...\n", "abc\nd\n", False),
            ("ab\n", "a\n", False),
            ("...\n", "", False),
            ("", "", True),
        ):
            self.assertEqual(agrees(given, came), wanted, (given, came))
        self.assertEqual((expected("abc", 2), expected("abc", ALL)), ("ab", "abc"))

    def test_each_part_of_what_came_counts(self) -> None:
        row = row_of("row All.\nwords a\nstatus 1\nout\n  x\nerr\n  y\nnotes\n  0 0 0 0x1\n")
        for run, notes, wanted in (
            (Run(1, b"x\n", b"y\n"), row.notes, True),
            (Run(1, b"x\n", b"y\n"), None, True),
            (Run(0, b"x\n", b"y\n"), None, False),
            (Run(None, b"x\n", b"y\n"), None, False),
            (Run(1, b"\xff\n", b"y\n"), None, False),
            (Run(1, b"x\n", b""), None, False),
            (Run(1, b"x\n", b"y\n"), "", False),
        ):
            self.assertEqual(is_as_said(row, RowRun("a"), Came(run, notes)), wanted, (run, notes))


class Programs(InFolder):
    def test_each_difference_is_shown(self) -> None:
        """Of rows of which each says something else than what comes, and of blocks that are no
        rows."""
        if not PROGRAM.exists() or not shutil.which("cc"):
            self.skipTest("the program or a C compiler is not there")
        done = run_rows(str(TESTS / "differing.rows"))
        self.assertEqual(
            (done.returncode, done.stdout, done.stderr),
            (1, (TESTS / "differing.expected").read_text(encoding="utf-8"), ""),
        )

    def stand_in(self, script: str) -> Path:
        program = Path(self.write("program", f"#!/bin/sh\n{script}\n"))
        program.chmod(0o755)
        return program

    def test_rows_over_files(self) -> None:
        """Each row has its own files, of which the first of a name counts, and those of the
        folder."""
        program = self.stand_in('cat -- "$@"; ls | grep -c unit; exit 3')
        rows = self.write(
            "a.rows",
            "row One.\nwords a b\nfile a\n  1\nfile b\n  2\nfile b\n  3\nout\n  1\n  2\n  4\n"
            "status 3\n\nrow Two.\nwords a\nfile a\n  4\nout\n  4\n  ...\nstatus 3\n",
        )
        done = run_rows(rows, program=program)
        self.assertEqual(
            (done.returncode, done.stdout, done.stderr), (0, "2 passed, 0 failed\n", "")
        )

    @needs_command("cc", "a C compiler")
    def test_calls_that_fail(self) -> None:
        """Reads fail after some bytes, in pieces, or at the end, openings by their number, and
        outputs take so many bytes."""
        failed = "cat: {}: Input/output error"
        rows = []
        for settings, status, out, err in (
            (["reads give 1 bytes"], 0, ["123", "45", "123"], []),
            (["a fails after 2 bytes"], 1, ["1245", "12\\"], [failed.format("a")] * 2),
            (["b fails after all bytes"], 1, ["123", "45", "123"], [failed.format("b")]),
            (["opening 3 fails"], 1, ["123", "45"], [failed.format("a")]),
            (["out takes 5 bytes"], 1, ["123", "45", "123"], [failed.format("write error")]),
            (
                ["opening 2 fails", "opening 3 fails"],
                1,
                ["123"],
                [failed.format("b"), failed.format("a")],
            ),
        ):
            wanted = ["out", *(f"  {line}" for line in out), "err", *(f"  {line}" for line in err)]
            rows.append(
                "\n".join(
                    [
                        "row One.",
                        "words x",
                        "file a",
                        "  123",
                        "file b",
                        "  45",
                        *settings,
                        f"status {status}",
                        *wanted,
                    ]
                )
            )
        done = run_rows(
            self.write("a.rows", "\n\n".join(rows)), program=self.stand_in("exec cat a b a")
        )
        self.assertEqual((done.stdout, done.returncode), (f"{len(rows)} passed, 0 failed\n", 0))
        full = self.write(
            "a.rows",
            "row One.\nwords x\nerr takes k bytes\nfor k from 1 to 5\nstatus 1\nerr\n  wrong\n",
        )
        self.assertEqual(
            run_rows(
                full,
                program=self.stand_in(
                    "exec python3 -I -S -c 'import os; os.write(2, b\"wrong\\n\"); os._exit(1)'"
                ),
            ).stdout,
            "1 passed, 0 failed\n",
        )

    def test_without_a_compiler_rows_in_which_calls_fail_are_skipped(self) -> None:
        (self.folder / "bin").mkdir()
        for name in ("sh", "cat", "env", "python3"):
            found = shutil.which(name)
            assert found
            (self.folder / "bin" / name).symlink_to(found)
        rows = self.write(
            "a.rows",
            "row One.\nwords a\nfile a\n  1\nout\n  1\n\nrow Two.\nwords a\nopening 1 fails\n",
        )
        done = run_rows(
            rows,
            program=self.stand_in('cat -- "$@"'),
            env={**os.environ, "PATH": str(self.folder / "bin")},
        )
        self.assertEqual(
            (done.returncode, done.stdout),
            (
                0,
                "skipped: 1 row in which calls fail: there is no C compiler (cc)\n"
                "1 passed, 0 failed\n",
            ),
        )

    def test_what_is_not_there(self) -> None:
        for words, wanted in (
            (
                ("--program", "none"),
                "rows: none is not built (cd crates/papi && rt run -- papi_soak 1)\n",
            ),
            (("--program", "/bin/true", "none"), "rows: none: No such file or directory\n"),
        ):
            done = subprocess.run(
                [str(ROWS), *words], capture_output=True, text=True, cwd=self.folder
            )
            self.assertEqual((done.returncode, done.stdout, done.stderr), (1, "", wanted))
