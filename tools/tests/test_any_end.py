"""Whatever ends a script or a tool, what it has started ends too, and no folder of it is left."""

from __future__ import annotations

import os
import resource
import shutil
import signal
import subprocess
import sys
import time
import unittest
from contextlib import suppress
from pathlib import Path
from types import FrameType
from typing import Any, Callable, NoReturn, Sequence

from parts.command import BY_SIGNAL, end_with
from parts.compiler import run_group
from tests.support import ROOT, TOOLS, InFolder, needs_command
from tests.test_hints import PLACE, make_tree
from tests.test_hints_running import is_alive

PATIENCE = 20  # seconds
SLOW = 15 * PATIENCE
ANY_END = (
    signal.SIGHUP,
    signal.SIGUSR1,
    signal.SIGUSR2,
    signal.SIGALRM,
    signal.SIGXCPU,
    signal.SIGVTALRM,
    signal.SIGPWR,
    signal.SIGRTMIN + 3,
    signal.SIGRTMAX,
    signal.SIGKILL,
)

REPORT = (
    "import pathlib, sys\nfrom parts.command import end_with\nfrom parts.report import asking\n"
    "asking.ROOT = pathlib.Path(sys.argv[1])\n"
    "def work():\n with asking.Tools(asking.Tables('unit')):\n  pass\nend_with('report', work)\n"
)
RECORD = (
    "import sys\nfrom parts import recording, valgrind\nfrom parts.command import end_with\n"
    "from parts.machine import MACHINES\n"
    "recording._words = lambda *any: []\nvalgrind.environment = lambda *any: None\n"
    "valgrind.tool = lambda: None\n"
    "valgrind.command = lambda words, path, arguments: [path]\n"
    "def work():\n recording.record(recording.Wanted(sys.argv[1], [], MACHINES['skl']), "
    "'/dev/null', '')\nend_with('record', work)\n"
)
PROGRAM = (
    "import pathlib, sys\nfrom parts import papi_program\nfrom parts.command import end_with\n"
    "papi_program.FOLDER = pathlib.Path(sys.argv[1])\n"
    "end_with('count', papi_program.prepare_program)\n"
)


def within(seconds: float, holds: Callable[[], bool]) -> bool:
    end = time.monotonic() + seconds
    while not holds():
        if time.monotonic() > end:
            return False
        time.sleep(0.01)
    return True


def end(process: int) -> None:
    with suppress(ProcessLookupError):
        os.kill(process, signal.SIGKILL)


def by_default() -> None:
    for number in ANY_END:
        if number != signal.SIGKILL:
            signal.signal(number, signal.SIG_DFL)


class Ends(InFolder):
    def setUp(self) -> None:
        super().setUp()
        self.temporary = self.folder / "temporary"
        self.temporary.mkdir()
        self.process = self.folder / "process"

    def slow(self, name: str, *lines: str) -> str:
        """A program that tells its number, and is slow."""
        text = "\n".join(
            ("#!/bin/sh", *lines, f'echo $$ >"{self.process}"', f"exec sleep {SLOW}", "")
        )
        path = Path(self.write(name, text))
        path.chmod(0o755)
        return str(path)

    def check_end(self, number: int, words: Sequence[str], **variables: str) -> int:
        """The status after a signal. Neither the slow program nor a temporary folder is left."""
        self.process.unlink(missing_ok=True)
        environment = {**os.environ, "TMPDIR": str(self.temporary), **variables}
        child = subprocess.Popen(
            words,
            cwd=self.folder,
            env=environment,
            stdin=subprocess.DEVNULL,
            stdout=subprocess.DEVNULL,
            stderr=subprocess.DEVNULL,
            preexec_fn=by_default,
        )
        self.assertTrue(
            within(
                PATIENCE, lambda: self.process.exists() and bool(self.process.read_text().strip())
            ),
            words,
        )
        started = int(self.process.read_text())
        self.addCleanup(end, started)
        child.send_signal(number)
        status = child.wait(PATIENCE)
        self.assertTrue(within(PATIENCE, lambda: not is_alive(started)), (words, number))
        self.assertTrue(within(PATIENCE, lambda: not os.listdir(self.temporary)), (words, number))
        return status


class Scripts(Ends):
    def setUp(self) -> None:
        super().setUp()
        self.bin = make_tree(self.folder)
        self.words = [str(self.bin / "papi_run"), "s"]

    def test_any_signal_to_a_script(self) -> None:
        self.slow(PLACE)
        for number in ANY_END:
            with self.subTest(number=number):
                self.assertEqual(self.check_end(number, self.words), -number)

    @needs_command("bash", "bash")
    def test_any_signal_to_a_script_of_bash(self) -> None:
        self.slow(PLACE)
        for number in ANY_END:
            with self.subTest(number=number):
                words = ["bash", str(self.bin / "papi"), "--tool", "papi_run", "s"]
                self.assertIn(self.check_end(number, words), (-number, 128 + number))

    def test_a_program_that_takes_no_signal(self) -> None:
        self.slow(PLACE, "trap '' TERM")
        self.assertEqual(self.check_end(signal.SIGKILL, self.words), -signal.SIGKILL)

    def limited(self, which: int, most: int) -> tuple[int, bytes, bytes]:
        environment = {
            **os.environ,
            "TMPDIR": str(self.temporary),
            "XDG_CACHE_HOME": str(self.folder / "cache"),
        }
        done = subprocess.run(
            self.words, cwd=self.folder, env=environment, stdin=subprocess.DEVNULL,
            capture_output=True, timeout=PATIENCE,
            preexec_fn=lambda: resource.setrlimit(which, (most, most)),
        )
        self.assertTrue(within(PATIENCE, lambda: not os.listdir(self.temporary)), (which, most))
        return done.returncode, done.stdout, done.stderr

    def test_limits_of_files(self) -> None:
        """Where no file may have a byte, the tool runs as without hints."""
        path = Path(
            self.write(
                PLACE,
                "#!/bin/sh\necho '1 0 add PAPI_ENOEVST'\necho 'papi: bad words' >&2\nexit 2\n",
            )
        )
        path.chmod(0o755)
        self.assertEqual(
            self.limited(resource.RLIMIT_FSIZE, 0),
            (2, b"1 0 add PAPI_ENOEVST\n", b"papi: bad words\n"),
        )
        for most in (1, 2, 20, 512):
            self.assertIn(self.limited(resource.RLIMIT_FSIZE, most)[0], (2, 5), most)

    def test_other_limits(self) -> None:
        path = Path(self.write(PLACE, "#!/bin/sh\nwhile :; do :; done\n"))
        path.chmod(0o755)
        self.assertNotEqual(self.limited(resource.RLIMIT_CPU, 1)[0], 0)
        for most in range(3, 12):
            path.write_text("#!/bin/sh\necho out\n", encoding="ascii")
            self.limited(resource.RLIMIT_NOFILE, most)


class Builds(Ends):
    @needs_command("cc", "a C compiler")
    def test_the_library(self) -> None:
        archive, heap = self.write("libpapi_c.a", ""), self.write("heap.a", "")
        slow = self.slow("slow")
        for number in (signal.SIGUSR1, signal.SIGXCPU, signal.SIGKILL):
            words = [str(ROOT / "c/build"), str(self.folder), archive]
            self.check_build(number, words, CC=slow, KISTALUB_HEAP=heap)

    def check_build(self, number: int, words: Sequence[str], **variables: str) -> None:
        """What a script waits for goes on for a moment if it is killed, and what it has made is
        gone then."""
        self.process.unlink(missing_ok=True)
        child = subprocess.Popen(
            words, cwd=self.folder, env={**os.environ, "TMPDIR": str(self.temporary), **variables},
            stdin=subprocess.DEVNULL,
            stdout=subprocess.DEVNULL, stderr=subprocess.DEVNULL, preexec_fn=by_default,
        )
        self.assertTrue(
            within(
                PATIENCE, lambda: self.process.exists() and bool(self.process.read_text().strip())
            ),
            words,
        )
        self.assertNotEqual(os.listdir(self.temporary), [])
        child.send_signal(number)
        os.kill(int(self.process.read_text()), signal.SIGTERM)
        self.assertEqual(
            child.wait(PATIENCE), -number if number == signal.SIGKILL else 128 + number
        )
        self.assertTrue(within(PATIENCE, lambda: not os.listdir(self.temporary)), (words, number))

    @needs_command("valgrind", "valgrind")
    def test_the_tool_of_valgrind(self) -> None:
        slow = self.slow("slow")
        for number in (signal.SIGUSR1, signal.SIGKILL):
            self.check_build(
                number, [str(TOOLS / "valgrind/build"), str(self.temporary / "tool")], CC=slow
            )


class Tools(Ends):
    def check_tool(self, words: Sequence[str], **variables: str) -> None:
        for number in ANY_END:
            with self.subTest(number=number):
                wanted = -number if number == signal.SIGKILL else BY_SIGNAL + number
                self.assertEqual(self.check_end(number, words, **variables), wanted)

    @needs_command("cc", "a C compiler")
    def test_a_compiler(self) -> None:
        slow = self.slow(
            "slow", f'case $* in *probe.c*) ;; *) exec {shutil.which("cc")} "$@" ;; esac'
        )
        self.check_tool([str(TOOLS / "make_fortran"), "--check"], CC=slow)

    def test_a_tool_of_a_report(self) -> None:
        (self.folder / "bin").mkdir()
        self.slow("bin/papi")
        self.check_tool(
            [sys.executable, "-B", "-c", REPORT, str(self.folder)], PYTHONPATH=str(TOOLS)
        )

    def test_a_recorded_program(self) -> None:
        """Here a slow program stands in the place of valgrind."""
        self.check_tool(
            [sys.executable, "-B", "-c", RECORD, self.slow("slow")], PYTHONPATH=str(TOOLS)
        )

    def test_a_signal_to_all_of_a_job(self) -> None:
        """It ends what a tool waits for first, and comes to the tool a moment later."""
        closed = " ".join(f"{number}>&-" for number in range(10))
        path = Path(
            self.write(
                "ended", f"#!/bin/sh\n(sleep 0.2; kill -USR1 $PPID) {closed} &\nkill -USR1 $$\n"
            )
        )
        path.chmod(0o755)
        (self.folder / "bin").mkdir()
        shutil.copy(path, self.folder / "bin/papi")
        for words in (
            [str(TOOLS / "make_fortran"), "--check"],
            [sys.executable, "-B", "-c", REPORT, str(self.folder)],
            [sys.executable, "-B", "-c", RECORD, str(path)],
            [sys.executable, "-B", "-c", PROGRAM, str(self.folder / "bin")],
        ):
            environment = {
                **os.environ,
                "CC": str(path),
                "PYTHONPATH": str(TOOLS),
                "TMPDIR": str(self.temporary),
            }
            done = subprocess.run(
                words, env=environment, stdin=subprocess.DEVNULL, capture_output=True,
                timeout=PATIENCE,
            )
            with self.subTest(words=words):
                self.assertEqual(
                    (done.returncode, done.stdout, done.stderr),
                    (BY_SIGNAL + signal.SIGUSR1, b"", b""),
                )

    def test_an_end_that_comes_in_a_finalizer(self) -> None:
        code = (
            "import signal, time\nfrom parts.command import end_with\n"
            "class Last:\n def __del__(self):\n  signal.raise_signal(signal.SIGUSR2)\n"
            f"def work():\n last = Last()\n del last\n time.sleep({PATIENCE})\n"
            "end_with('tool', work)\n"
        )
        environment = {**os.environ, "PYTHONPATH": str(TOOLS)}
        done = subprocess.run(
            [sys.executable, "-B", "-c", code], env=environment, capture_output=True, timeout=SLOW
        )
        self.assertEqual((done.returncode, done.stderr), (BY_SIGNAL + signal.SIGUSR2, b""))


class Lines(Ends):
    """A signal that comes before any line of what a tool runs while it waits for a command."""

    WATCHED = ("compiler.py", "subprocess.py")
    LAST = 99  # the status of a process that has no such line

    def in_child(self, number: int) -> NoReturn:
        """Sends itself a signal before a line with this number. The command goes on until it is
        ended."""
        seen = 0

        def trace(frame: FrameType, event: str, argument: Any) -> Any:
            nonlocal seen
            if os.path.basename(frame.f_code.co_filename) not in self.WATCHED:
                return None
            seen += event == "line"
            if event == "line" and seen == number:
                sys.settrace(None)
                frame.f_trace = None
                signal.raise_signal(signal.SIGUSR1)
            return trace

        def work() -> None:
            sys.settrace(trace)
            run_group(["/bin/sh", "-c", f'echo $$ >"{self.process}"; exec sleep 2'])
            os._exit(self.LAST)

        status = 1
        try:
            by_default()
            os.dup2(os.open(os.devnull, os.O_WRONLY), 2)
            end_with("tool", work)
        except SystemExit as end:
            status = end.code if isinstance(end.code, int) else 1
        finally:
            os._exit(status)

    def status_of_line(self, number: int) -> int:
        process = os.fork()
        if not process:
            self.in_child(number)
        return os.waitstatus_to_exitcode(os.waitpid(process, 0)[1])

    def test_each_line(self) -> None:
        number, status = 1, 0
        while status != self.LAST:
            self.process.unlink(missing_ok=True)
            status = self.status_of_line(number)
            text = self.process.read_text() if self.process.exists() else ""
            if text.strip():
                self.assertTrue(within(PATIENCE, lambda: not is_alive(int(text))), number)
            self.assertIn(status, (BY_SIGNAL + signal.SIGUSR1, self.LAST), number)
            number += 1
        self.assertGreater(number, 100)


if __name__ == "__main__":
    unittest.main()
