"""What all tools share: statuses, signals that wait, lines of standard input, and the line that
shows the progress."""

from __future__ import annotations

import io
import signal
import subprocess
import sys
import unittest
from contextlib import redirect_stderr
from types import SimpleNamespace
from unittest import mock

from parts import command
from parts.command import Fault, Progress, counted, input_lines, read_file
from tests.support import TOOLS, InFolder


class Statuses(unittest.TestCase):
    def told(self, error: BaseException) -> tuple[int, str]:
        def work() -> None:
            raise error

        with redirect_stderr(io.StringIO()) as said:
            return command._status_of("it", work), said.getvalue()

    def test_each_end_has_its_status_and_line(self) -> None:
        cases: list[tuple[BaseException, int, str]] = [
            (Fault("no"), 1, "it: no\n"), (Fault("full", 3), 3, "it: full\n"),
            (SystemExit(7), 7, ""), (SystemExit(None), 0, ""), (SystemExit("words"), 1, ""),
            (KeyboardInterrupt(), 130, ""), (BrokenPipeError(), 1, ""),
            (RecursionError(), 1, "it: the input is nested too deep\n"),
            (MemoryError(), 1, "it: out of memory\n"),
            (OSError(2, "is gone", "some"), 1, "it: some: is gone\n"),
            (OSError(2, "is gone", b"some"), 1, "it: some: is gone\n"),
            (OSError(2, "is gone"), 1, "it: is gone\n"),
            (OSError("bare"), 1, "it: bare\n"), (OSError(), 1, "it: OSError\n"),
            (OSError(2, "is gone", 5), 1, "it: is gone\n"),
        ]
        for error, status, line in cases:
            self.assertEqual(self.told(error), (status, line), repr(error))
        self.assertEqual(command._status_of("it", lambda: None), 0)

    def test_other_faults_are_not_hidden(self) -> None:
        with self.assertRaises(ZeroDivisionError):
            self.told(ZeroDivisionError())


class Signals(InFolder):
    def run_code(self, *lines: str) -> subprocess.CompletedProcess[str]:
        code = "\n".join(
            (
                "import os, signal, sys", "from parts.command import *",
                "from parts.started import temporary_folder",
                "kill = lambda number: os.kill(os.getpid(), number)", "def work():",
                *(f" {line}" for line in lines), "end_with('it', work)",
            )
        )
        return subprocess.run(
            [sys.executable, "-B", "-c", code],
            cwd=self.folder,
            env={"PYTHONPATH": str(TOOLS), "TMPDIR": str(self.folder)},
            capture_output=True,
            text=True,
            preexec_fn=lambda: [
                signal.signal(each, signal.SIG_DFL) for each in command.ENDING_SIGNALS
            ],
        )

    def test_a_signal_waits_for_the_end_of_the_block(self) -> None:
        for number in command.ENDING_SIGNALS:
            done = self.run_code(
                "with uninterrupted():", f"  kill({int(number)}); print('inside', flush=True)",
                "print('after', flush=True)",
            )
            self.assertEqual(
                (done.returncode, done.stdout, done.stderr), (128 + number, "inside\n", "")
            )

    def test_blocks_within_blocks(self) -> None:
        done = self.run_code(
            "with uninterrupted():", "  with uninterrupted():", "    kill(15)",
            "  print('between', flush=True)", "print('after', flush=True)",
        )
        self.assertEqual((done.returncode, done.stdout), (143, "between\n"))
        done = self.run_code("with uninterrupted():", "  pass", "print('done')")
        self.assertEqual((done.returncode, done.stdout), (0, "done\n"))

    def test_a_folder_is_gone_after_a_signal(self) -> None:
        done = self.run_code(
            "with temporary_folder('some-') as folder:", "  (folder / 'x').touch()",
            "  print(folder.name[:5], folder.parent == Path.cwd(), flush=True)", "  kill(15)",
        )
        self.assertEqual(
            (done.returncode, done.stdout, list(self.folder.iterdir())), (143, "some- True\n", [])
        )

    def test_a_second_signal_does_not_disturb_the_end(self) -> None:
        done = self.run_code(
            "try: kill(15)", "finally: kill(1); kill(2); print('put away', flush=True)"
        )
        self.assertEqual((done.returncode, done.stdout, done.stderr), (143, "put away\n", ""))


class Input(unittest.TestCase):
    def lines(self, content: bytes, most: int | None = None) -> list[bytes]:
        with mock.patch.object(
            sys, "stdin", SimpleNamespace(buffer=io.BytesIO(content))
        ), mock.patch.object(command, "LONGEST_LINE", 4):
            return list(input_lines(most))

    def test_lines(self) -> None:
        self.assertEqual(self.lines(b"abc\n\n\xff\nd"), [b"abc\n", b"\n", b"\xff\n", b"d"])
        self.assertEqual(self.lines(b""), [])

    def test_a_line_that_is_too_long(self) -> None:
        with self.assertRaisesRegex(Fault, "^standard input: line 2: too long$"):
            self.lines(b"a\nabcd\n")
        self.assertEqual(self.lines(b"a\nabcd"), [b"a\n", b"abcd"])

    def test_too_many_lines(self) -> None:
        self.assertEqual(len(self.lines(b"a\nb\n", 4)), 2)
        with self.assertRaisesRegex(Fault, "^standard input: line 3: too many$"):
            self.lines(b"a\nb\nc\n", 4)


class Terminal(io.StringIO):
    def isatty(self) -> bool:
        return True


class Gone(Terminal):
    def write(self, text: str) -> int:
        raise OSError(5, "Input/output error")


class Progressing(unittest.TestCase):
    def shown(self, terminal: io.StringIO, total: int = 0) -> str:
        with redirect_stderr(terminal):
            progress = Progress("cases", total)
            progress.show(1000)
            progress.tell("nearly")
            progress.close()
        return terminal.getvalue()

    def test_a_line_on_a_terminal(self) -> None:
        self.assertEqual(
            self.shown(Terminal()), "\rcases: 1,000\x1b[K\rcases: nearly\x1b[K\r\x1b[K"
        )
        self.assertEqual(
            self.shown(Terminal(), 2000),
            "\rcases: 1,000 of 2,000\x1b[K\rcases: nearly\x1b[K\r\x1b[K",
        )

    def test_none_elsewhere(self) -> None:
        self.assertEqual((self.shown(io.StringIO()), self.shown(Gone())), ("", ""))


class Texts(InFolder):
    def test_counted(self) -> None:
        self.assertEqual(
            [counted(number, "name") for number in (0, 1, 2, 1000)],
            ["0 names", "1 name", "2 names", "1,000 names"],
        )

    def test_the_text_of_a_file(self) -> None:
        (self.folder / "some").write_bytes("ä\r\nb\rc\n".encode())
        self.assertEqual(read_file(str(self.folder / "some")), "ä\nb\nc\n")
        (self.folder / "some").write_bytes(b"\xff")
        with self.assertRaisesRegex(Fault, "some: not a text file$"):
            read_file(str(self.folder / "some"))
        with self.assertRaisesRegex(Fault, "none: No such file or directory$"):
            read_file(str(self.folder / "none"))

    def test_whether_a_file_has_a_text(self) -> None:
        path = self.folder / "some"
        self.assertFalse(command.is_text_of(path, "ä"))
        for content, same in (("ä", True), ("äb", False), ("", False), ("b", False)):
            path.write_text(content, encoding="utf-8")
            self.assertEqual(command.is_text_of(path, "ä"), same, content)
