"""The progress line of the scripts in bin/, over a program of sh: on a terminal alone, gone before
the output, and nothing else changes."""

from __future__ import annotations

import os
import pty
import re
import select
import signal
import subprocess
import time
import unittest
from contextlib import suppress
from pathlib import Path
from typing import Callable

from tests.support import ROOT, InFolder
from tests.test_hints import PLACE, make_tree

LINE = re.compile(rb"\rpapi_run: [0-9]+ s\x1b\[K")
GONE = b"\r\x1b[K"
PATIENCE = 60  # seconds
UNTIL_SEEN = (
    "tries=0",
    f"until [ -e go ] || [ $tries = {10 * PATIENCE} ]; do sleep 0.1; tries=$((tries + 1)); done",
)


def take_interrupts() -> None:
    """A shell starts what it puts in the background with SIGINT and SIGQUIT ignored, and so would
    the tests be."""
    for number in (signal.SIGHUP, signal.SIGINT, signal.SIGQUIT, signal.SIGTERM):
        signal.signal(number, signal.SIG_DFL)


def readers_below(folder: Path) -> list[str]:
    """The processes whose standard input or another low descriptor is a file below a folder, of
    which it may be gone."""
    found = []
    for link in Path("/proc").glob("[0-9]*/fd/[07]"):
        with suppress(OSError):
            if os.readlink(link).startswith(f"{folder}/"):
                found.append(str(link))
    return found


class Progress(InFolder):
    def setUp(self) -> None:
        super().setUp()
        self.tool = str(make_tree(self.folder) / "papi_run")

    def program(self, *lines: str) -> None:
        path = self.write(PLACE, "\n".join(("#!/bin/sh", *lines, "")))
        os.chmod(path, 0o755)

    def start(
        self, words: str, out: int | None, **variables: str
    ) -> tuple[subprocess.Popen[bytes], int]:
        """A call whose standard error is a terminal, and its output too if there is no other. Gives
        the other end of the terminal."""
        ours, terminal = pty.openpty()
        environment = {**os.environ, "TERM": "xterm", **variables}
        child = subprocess.Popen(
            ["/bin/sh", "-c", f"exec {self.tool} {words}"], stdin=subprocess.DEVNULL,
            stdout=terminal if out is None else out, stderr=terminal, cwd=self.folder,
            env=environment, start_new_session=True, preexec_fn=take_interrupts,
        )
        os.close(terminal)
        return child, ours

    def shown(self, terminal: int, seen: Callable[[], object] = lambda: None) -> bytes:
        """All that comes to a terminal, until nobody has it open. The first progress line makes the
        file `go`, for which a program may wait."""
        written = b""
        while True:
            try:
                piece = os.read(terminal, 4096)
            except OSError:  # Linux ends a terminal so
                piece = b""
            if not piece:
                os.close(terminal)
                return written.replace(b"\r\n", b"\n")
            written += piece
            if LINE.search(written) and not (self.folder / "go").exists():
                (self.folder / "go").touch()
                seen()

    def wait_for_process(self) -> int:
        """The number of the program, as soon as it has said it."""
        path, end = self.folder / "process", time.monotonic() + PATIENCE
        while not (path.exists() and path.read_text().endswith("\n")) and time.monotonic() < end:
            time.sleep(0.01)
        return int(path.read_text())

    def call(self, words: str, **variables: str) -> tuple[int, bytes]:
        child, terminal = self.start(words, None, **variables)
        shown = self.shown(terminal)
        return child.wait(PATIENCE), shown

    def test_the_line_is_gone_before_the_output(self) -> None:
        self.program(
            *UNTIL_SEEN, "printf 'a\\n\\nb\\n\\n'", "echo 'papi: stream 0: line 1: bad field' >&2",
            "exit 2",
        )
        status, shown = self.call("s t", KISTALUB_HINTS="0")
        line, gone, rest = shown.partition(GONE)
        self.assertEqual(
            (status, gone, rest), (2, GONE, b"a\n\nb\n\npapi: stream 0: line 1: bad field\n")
        )
        self.assertEqual(LINE.sub(b"", line), b"")
        self.assertGreaterEqual(len(LINE.findall(line)), 1)

    def test_hints_come_after_it(self) -> None:
        self.program(*UNTIL_SEEN, "echo 'papi: bad words' >&2", "exit 2")
        status, shown = self.call("s")
        self.assertEqual(
            (status, LINE.sub(b"", shown).startswith(GONE + b"papi: bad words\nhint: ")), (2, True),
            shown,
        )

    def test_a_temporary_folder_by_any_name(self) -> None:
        self.program(*UNTIL_SEEN, "echo '1 0 add PAPI_ENOEVST'")
        (self.folder / "-tmp").mkdir()
        status, shown = self.call("--strict s t", TMPDIR="-tmp", KISTALUB_HINTS="0")
        self.assertEqual(
            (status, shown.partition(GONE)[2], os.listdir(self.folder / "-tmp")),
            (1, b"1 0 add PAPI_ENOEVST\n", []),
        )

    def test_an_output_elsewhere_has_the_programs_bytes_alone(self) -> None:
        self.program(*UNTIL_SEEN, "printf 'a\\n\\nx'", "exit 3")
        path = self.folder / "out"
        with open(path, "wb") as out:
            child, terminal = self.start("s t", out.fileno())
            shown = self.shown(terminal)
        self.assertEqual(
            (child.wait(PATIENCE), path.read_bytes(), LINE.sub(b"", shown)), (3, b"a\n\nx", GONE)
        )

    def test_no_line_where_none_is_wanted(self) -> None:
        self.program('echo "$@"', "sleep 1", "echo 'papi: bad words' >&2", "exit 2")
        words = b"papi_run s t\n"
        self.assertEqual(self.call("--quiet s t"), (2, words + b"papi: bad words\n"))
        self.assertEqual(self.call("s --quiet t"), (2, words + b"papi: bad words\n"))
        self.assertEqual(
            self.call("s t", TERM="dumb", KISTALUB_HINTS="0"), (2, words + b"papi: bad words\n")
        )
        self.assertEqual(
            self.call("s -- --quiet", TERM="dumb", KISTALUB_HINTS="0"),
            (2, b"papi_run s -- --quiet\npapi: bad words\n"),
        )
        piped = subprocess.run(
            [self.tool, "s", "t"], capture_output=True, cwd=self.folder,
            env={**os.environ, "TERM": "xterm", "KISTALUB_HINTS": "0"},
        )
        self.assertEqual(
            (piped.returncode, piped.stdout, piped.stderr), (2, words, b"papi: bad words\n")
        )

    def test_short_runs_have_none(self) -> None:
        """The line waits for half a second by `sleep`. Here that is one that outlasts the run,
        however slow the machine is."""
        (self.folder / "path").mkdir()
        os.chmod(
            self.write(
                "path/sleep", '#!/bin/sh\necho "$1" >>asked\nPATH=${PATH#*:}\nexec sleep 60\n'
            ),
            0o755,
        )
        self.program(
            "PATH=${PATH#*:}", *(line.replace("go", "asked") for line in UNTIL_SEEN), "echo out",
            "exit 1",
        )
        path = f"{self.folder}/path:{os.environ['PATH']}"
        self.assertEqual(self.call("s t", KISTALUB_HINTS="0", PATH=path), (1, b"out\n"))
        self.assertEqual((self.folder / "asked").read_text(), "0.5\n")

    def test_an_interrupt_ends_all(self) -> None:
        self.program("sleep 30", "echo out")
        child, terminal = self.start("s t", None)
        shown = self.shown(terminal, lambda: os.killpg(child.pid, signal.SIGINT))
        self.assertEqual(child.wait(PATIENCE), -signal.SIGINT)
        self.assertNotIn(b"out", shown)
        self.assertTrue(shown.endswith(GONE), shown)

    def test_a_signal_to_the_script_alone_ends_the_program_and_the_line(self) -> None:
        self.program('echo "$$" >process', "exec sleep 30")
        for number in (signal.SIGHUP, signal.SIGINT, signal.SIGTERM):
            for name in ("go", "process"):
                (self.folder / name).unlink(missing_ok=True)
            child, terminal = self.start("s t", None)
            shown = self.shown(
                terminal, lambda: (self.wait_for_process(), child.send_signal(number))
            )
            self.assertEqual(child.wait(PATIENCE), -number)
            self.assertTrue(shown.endswith(GONE), shown)
            self.assertFalse(Path(f"/proc/{self.wait_for_process()}/exe").exists())

    @unittest.skipUnless(Path("/proc/self/fd").exists(), "there is no /proc/self/fd")
    def test_what_waits_for_the_output_ends_too(self) -> None:
        """Also where what the program has started has the output open."""
        (self.folder / "tmp").mkdir()
        self.program("sleep 60 &", "echo $! >sleeper", 'echo "$$" >process', "exec sleep 60")
        child, terminal = self.start("s t", None, TMPDIR=str(self.folder / "tmp"))
        self.shown(terminal, lambda: (self.wait_for_process(), child.send_signal(signal.SIGTERM)))
        self.assertEqual(child.wait(PATIENCE), -signal.SIGTERM)
        self.addCleanup(os.kill, int((self.folder / "sleeper").read_text()), signal.SIGKILL)
        end = time.monotonic() + 5
        while (left := readers_below(self.folder / "tmp")) and time.monotonic() < end:
            time.sleep(0.01)
        self.assertEqual(left, [])

    def test_no_line_goes_on_without_the_script(self) -> None:
        """After a signal that the script can't take, the line ends, and none comes again."""
        self.program('echo "$$" >process', f"exec sleep {3 * PATIENCE}")
        child, terminal = self.start("s t", None)
        written = b""
        while not LINE.search(written):
            written += os.read(terminal, 4096)
        process = self.wait_for_process()
        child.kill()
        child.wait(PATIENCE)
        self.addCleanup(os.close, terminal)
        self.addCleanup(os.kill, process, signal.SIGKILL)
        end = time.monotonic() + PATIENCE
        while not written.endswith(GONE) and time.monotonic() < end:
            written += self.heard_for(terminal, 0.1)
        self.assertTrue(written.endswith(GONE), written)
        self.assertEqual(self.heard_for(terminal, 2.5), b"")

    def heard_for(self, terminal: int, seconds: float) -> bytes:
        """What comes to a terminal in this time."""
        heard, end = b"", time.monotonic() + seconds
        while (left := end - time.monotonic()) > 0:
            if select.select([terminal], [], [], left)[0]:
                heard += os.read(terminal, 4096)
        return heard


class PartRead(InFolder):
    @unittest.skipUnless(Path("/proc/self/fdinfo").exists(), "there is no /proc/self/fdinfo")
    def test_how_much_was_read(self) -> None:
        self.write("a", "a" * 1000)
        self.write("b", "b" * 3000)
        script = (
            f". {ROOT}/bin/hints/progress.sh; exec 5<a 6<b; dd bs=500 count=2 <&6 >/dev/null 2>&1; "
            "part_read $$; exec 5<&- 6<&-; part_read $$"
        )
        done = subprocess.run(
            ["/bin/sh", "-c", script], capture_output=True, text=True, cwd=self.folder
        )
        self.assertEqual((done.stdout, done.stderr), (", 25 % of the streams read\n", ""))
