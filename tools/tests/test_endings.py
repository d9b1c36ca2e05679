"""How the tools end: with closed and full streams, in other locales, after signals, and over texts
that are none."""

from __future__ import annotations

import os
import signal
import subprocess
import sys
import time
import unittest
from pathlib import Path
from xml.etree import ElementTree

from parts.command import Fault, read_bytes
from parts.crate_graph import below, levels, read_crates
from parts.perf_events import read_event_files
from parts.profile import read_profile
from tests.support import ROOT, TOOLS, InFolder, has_library, needs_command

PROFILE = "range loop 1\n0x4 1\noutside 1\ntotal 2\n"
PATIENCE = 60  # seconds
SOON = 10  # seconds
SVG = "{http://www.w3.org/2000/svg}"


def is_soon_over(process: str) -> bool:
    """Whether a process is gone in a moment, or waits for its end to be read."""
    end = time.monotonic() + SOON
    while time.monotonic() < end:
        try:
            state = Path("/proc", process, "stat").read_text().rpartition(")")[2].split()[0]
        except OSError:
            return True
        if state == "Z":
            return True
        time.sleep(0.01)
    return False


class Ending(InFolder):
    def shell(
        self, line: str, *words: object, text: bytes = b"", **variables: str
    ) -> subprocess.CompletedProcess[bytes]:
        """A line of sh, which has the words as "$@", with the folder of the tools in `tools`."""
        environment = {**os.environ, "tools": str(TOOLS), **variables}
        shown: list[str | bytes] = [
            "sh", "-c", line, "sh",
            *(os.fsencode(str(word)) if not isinstance(word, bytes) else word for word in words),
        ]
        return subprocess.run(
            shown, input=text, capture_output=True, cwd=self.folder, env=environment, timeout=60
        )

    def assert_told(self, done: subprocess.CompletedProcess[bytes], status: int, line: str) -> None:
        self.assertEqual((done.returncode, done.stderr.decode("utf-8", "replace")), (status, line))


class Streams(Ending):
    TOOLS = ["plot <profile", "draw_crates", "preset_lines unit <profile"] + [
        "make_unit --list"
    ] * has_library("libpfm.so.4")

    def setUp(self) -> None:
        super().setUp()
        self.write("profile", PROFILE)
        self.write("unit", "COMPONENT,cpu,lab\n")

    def test_an_output_that_is_closed(self) -> None:
        for words in self.TOOLS:
            self.assert_told(
                self.shell(f"$tools/{words} >&-"), 1,
                f"{words.split()[0]}: standard output: Bad file descriptor\n",
            )

    def test_an_output_that_takes_nothing(self) -> None:
        for words in [*self.TOOLS, "plot --help", "make_map --help"]:
            self.assert_told(
                self.shell(f"$tools/{words} >/dev/full"), 1,
                f"{words.split()[0]}: standard output: No space left on device\n",
            )

    def test_a_reader_that_has_enough(self) -> None:
        for words in self.TOOLS:
            self.assert_told(self.shell(f"{{ $tools/{words}; echo $? >status; }} | :"), 0, "")
            self.assertIn((self.folder / "status").read_text(), ("0\n", "1\n"))

    def test_an_input_that_is_closed(self) -> None:
        for words in ("plot", "preset_lines unit"):
            self.assert_told(
                self.shell(f"$tools/{words} <&-"), 1,
                f"{words.split()[0]}: standard input: Bad file descriptor\n",
            )

    def test_an_input_without_an_end(self) -> None:
        for words in ("plot", "preset_lines unit"):
            self.assert_told(
                self.shell(f"$tools/{words} </dev/zero"), 1,
                f"{words.split()[0]}: standard input: line 1: too long\n",
            )

    def test_standard_error_that_takes_nothing_changes_nothing_else(self) -> None:
        whole = self.shell("$tools/plot <profile").stdout
        for end in ("2>&-", "2>/dev/full"):
            done = self.shell(f"$tools/plot <profile {end}")
            self.assertEqual((done.returncode, done.stdout), (0, whole), end)
            done = self.shell(f"echo words | $tools/plot {end}")
            self.assertEqual((done.returncode, done.stdout), (1, b""), end)
            for tool in ("plot no words", "report", "conflict"):
                self.assertEqual(self.shell(f"$tools/{tool} {end}").returncode, 2, (tool, end))

    def test_no_file_takes_the_number_of_a_closed_stream(self) -> None:
        """A process that is started from here writes its errors to descriptor 2, which must be no
        file of ours."""
        code = (
            "import os, subprocess\nfrom parts.command import end_with\n"
            "def work():\n with open('made', 'w') as file:\n"
            "  subprocess.run(['sh', '-c', 'echo loud >&2'])\n"
            "  file.write(str(file.fileno()))\nend_with('it', work)\n"
        )
        done = self.shell(
            '"$@" 2>&- <&- >&-', sys.executable, "-B", "-c", code, PYTHONPATH=str(TOOLS)
        )
        self.assertEqual((done.returncode, (self.folder / "made").read_text()), (0, "3"))

    def test_a_status_is_kept_if_nothing_can_be_told(self) -> None:
        code = (
            "from parts.command import Fault, end_with\ndef work():\n raise Fault('full', 3)\n"
            "end_with('it', work)\n"
        )
        for end in ("", "2>&-", "2>/dev/full", ">&-", ">/dev/full"):
            self.assertEqual(
                self.shell(
                    f'"$@" {end}', sys.executable, "-B", "-c", code, PYTHONPATH=str(TOOLS)
                ).returncode,
                3,
                end,
            )


class Scripts(Ending):
    def test_a_usage_that_can_not_be_written(self) -> None:
        for words in ("papi --help", "papi --version", "papi_run --help"):
            self.assertEqual(self.shell(f"$tools/../bin/{words} >/dev/full").returncode, 5, words)

    def test_hints_where_the_folder_is_gone(self) -> None:
        hints = (
            f"mkdir gone; cd gone; rmdir ../gone; exec {sys.executable} -I -S -B "
            "$tools/../bin/hints bin/papi_run 2 papi_run -U x.unit s"
        )
        done = self.shell(hints, text=b"papi: no such file: x.unit\n")
        self.assertEqual((done.returncode, done.stderr), (0, b""))


    def test_hints_that_nobody_takes(self) -> None:
        hints = (
            f"exec {sys.executable} -I -S -B $tools/../bin/hints bin/papi_run 2 papi_run -U x.unit "
            "s"
        )
        for line in (f"{hints} >/dev/full", f"{{ sleep 0.2; {hints}; }} | :"):
            done = self.shell(line, text=b"papi: no such file: x.unit\n")
            self.assertEqual((done.returncode, done.stderr), (0, b""), line)

    def test_a_signal_while_the_folder_of_a_script_is_made(self) -> None:
        """It acts a little later, and the folder is gone then, whether it comes to the script alone
        or to what it has started too."""
        (self.folder / "tmp").mkdir()
        (self.folder / "slow").mkdir()
        self.write(
            "slow/mktemp", "#!/bin/sh\nPATH=${PATH#*:}\nmktemp \"$@\" && touch made && sleep 1\n"
        )
        (self.folder / "slow/mktemp").chmod(0o755)
        environment = {
            **os.environ,
            "PATH": f"{self.folder}/slow:{os.environ['PATH']}",
            "TMPDIR": str(self.folder / "tmp"),
        }
        for number, send in (
            (signal.SIGHUP, os.kill), (signal.SIGTERM, os.kill), (signal.SIGINT, os.killpg),
            (signal.SIGTERM, os.killpg),
        ):
            (self.folder / "made").unlink(missing_ok=True)
            child = subprocess.Popen(
                [str(ROOT / "bin/papi_run"), "-U", "none", "none"],
                cwd=self.folder,
                env=environment,
                stdout=subprocess.PIPE,
                stderr=subprocess.PIPE,
                start_new_session=True,
                preexec_fn=lambda: [
                    signal.signal(each, signal.SIG_DFL)
                    for each in (signal.SIGHUP, signal.SIGINT, signal.SIGTERM)
                ],
            )
            end = time.monotonic() + PATIENCE
            while not (self.folder / "made").exists() and time.monotonic() < end:
                time.sleep(0.01)
            send(child.pid, number)
            child.communicate(timeout=PATIENCE)
            self.assertEqual(
                (child.returncode, os.listdir(self.folder / "tmp")), (-number, []), send
            )


class Texts(Ending):
    def test_a_title_in_any_locale(self) -> None:
        """A picture has no declaration, so it is UTF-8."""
        locales: list[dict[str, str]] = [
            {"PYTHONIOENCODING": "ascii"}, {"PYTHONIOENCODING": "latin-1"},
            {"LC_ALL": "C", "PYTHONCOERCECLOCALE": "0", "PYTHONUTF8": "0"}, {},
        ]
        for variables in locales:
            done = self.shell(
                "$tools/plot --title 'Größe \u2265 1'", text=PROFILE.encode(), **variables
            )
            self.assertEqual((done.returncode, done.stderr), (0, b""), variables)
            told = ElementTree.fromstring(done.stdout.decode("utf-8")).findtext(f"{SVG}title") or ""
            self.assertEqual((told[:2], told[-2:]), ("Gr", " 1"))
            if "LC_ALL" not in variables:
                self.assertEqual(told, "Größe \u2265 1")

    def test_a_title_that_no_document_may_have(self) -> None:
        for title in (
            b"a\x01b", b"a\x1b[31mb", b"a\xffb", b"a\xed\xa0\x80b", "a\u202eb\ufffe".encode(),
        ):
            done = self.shell('$tools/plot --title "$1"', title, text=PROFILE.encode())
            told = ElementTree.fromstring(done.stdout.decode("utf-8")).findtext(f"{SVG}title") or ""
            self.assertEqual(
                (told[0], told[1], "b" in told[2:], done.returncode), ("a", "\ufffd", True, 0),
                title,
            )

    def test_hostile_names_of_a_profile_show_as_text(self) -> None:
        name = "</text><script>alert(1)</script>&lt;\x02\""
        done = self.shell(
            '$tools/plot --title "$1"', name,
            text=f"range {name} 1\n0x4 1\noutside 0\ntotal 1\n".encode(),
        )
        root = ElementTree.fromstring(done.stdout.decode("utf-8"))
        shown = name.replace("\x02", "\ufffd")
        texts = [element.text for element in root.iter() if element.text]
        self.assertIn(shown, texts)  # the title
        self.assertIn(f"{shown}: 1  100.0 %", texts)
        self.assertIn(shown[:26] + "\u2026", texts)
        self.assertEqual([element.tag for element in root.iter() if "script" in element.tag], [])

    def test_numbers_that_are_none(self) -> None:
        cases = [
            f"range a 0\noutside {number}\ntotal {number}"
            for number in ("-1", "+1", "1_0", "\u0661", "9" * 21, "9" * 5000, "1.0", "0x1")
        ]
        cases += [
            f"range a 1\n{address} 1\noutside 0\ntotal 1"
            for address in ("4", "-0x4", "0x", "0x" + "f" * 17, "0x" + "f" * 5000, "0x_4")
        ]
        for text in cases:
            with self.assertRaisesRegex(
                Fault, "^standard input: line 2: not a line of papi_profil's output$", msg=text[:40]
            ):
                read_profile(text.splitlines())
        self.assert_told(
            self.shell("$tools/plot", text=cases[0].encode()), 1,
            "plot: standard input: line 2: not a line of papi_profil's output\n",
        )

    def test_names_that_are_no_text(self) -> None:
        self.assert_told(
            self.shell('$tools/make_map "$1"', b"no\xff"), 1,
            "make_map: no\\xff: No such file or directory\n",
        )
        self.assert_told(
            self.shell('$tools/make_map --stream "$1" /bin/sh', b"no\xff"), 1,
            "make_map: /bin/sh has no functions among its symbols (is it stripped?)\n",
        )
        self.assert_told(
            self.shell('$tools/preset_lines "$1"', b"no\xff"), 1,
            "preset_lines: no\\xff: No such file or directory\n",
        )

    def test_lines_that_are_no_text_stay(self) -> None:
        self.write("unit", "COMPONENT,cpu,lab\n")
        (self.folder / os.fsdecode(b"u\xff")).write_bytes(b"A,\xff\n")
        done = self.shell(
            '$tools/preset_lines "$1"', b"u\xff",
            text=b"some \xff line\npapi: u\xff: row 1: bad row\n",
        )
        self.assertEqual(
            (done.returncode, done.stdout, done.stderr),
            (0, b"some \xff line\nu\xff:1: bad row: A,\\xff\n", b""),
        )

    def test_an_input_that_is_no_text(self) -> None:
        self.assert_told(
            self.shell("$tools/plot", text=b"range a\xff 1\n"), 1,
            "plot: standard input: not a text\n",
        )

    def test_a_file_of_the_most_bytes(self) -> None:
        name = self.write("some", "123")
        self.assertEqual(read_bytes(name, 3), b"123")
        with self.assertRaisesRegex(Fault, f"^{name}: too large$"):
            read_bytes(name, 2)

    def test_each_usage_has_the_name_of_its_tool(self) -> None:
        for name in sorted(
            path.name for path in TOOLS.iterdir() if os.access(path, os.X_OK) and path.is_file()
            and path.name not in ("check", "make_deb")
        ):
            done = self.shell(f"$tools/{name} --help")
            self.assertEqual(
                (done.returncode, done.stderr, done.stdout[: 8 + len(name)]),
                (0, b"", f"usage: {name} ".encode()),
            )

    def test_an_address_of_5000_digits(self) -> None:
        for number in ("9" * 5000, "0x" + "f" * 5000):
            self.assertEqual(
                self.shell('$tools/make_map --base "$1" /bin/sh', number).returncode, 2
            )


def end_by_signals() -> None:
    """What ends a process does so, also where these tests run without a terminal and ignore it."""
    for number in (signal.SIGINT, signal.SIGTERM, signal.SIGHUP):
        signal.signal(number, signal.SIG_DFL)


class Signals(Ending):
    def end(self, number: int, *words: str, **variables: str) -> tuple[int, bytes]:
        """The status of a tool that is sent a signal when it has read a line."""
        reader, writer = os.pipe()
        child = subprocess.Popen(
            [*words], stdin=reader, stdout=subprocess.PIPE, stderr=subprocess.PIPE, cwd=self.folder,
            env={**os.environ, **variables}, preexec_fn=end_by_signals,
        )
        os.close(reader)
        self.wait_until_blocked(child.pid)
        child.send_signal(number)
        _, told = child.communicate(timeout=PATIENCE)
        os.close(writer)
        return child.returncode, told

    def wait_until_blocked(self, process: int) -> None:
        """Until a process waits for its input, or for one that it has started."""
        end = time.monotonic() + PATIENCE
        while time.monotonic() < end:
            waits = Path(f"/proc/{process}/wchan").read_text()
            if "pipe_read" in waits or "do_wait" in waits or "poll" in waits:
                return
            time.sleep(0.01)

    @unittest.skipUnless(Path("/proc/self/wchan").exists(), "there is no /proc/self/wchan")
    def test_a_signal_has_its_status(self) -> None:
        self.write("unit", "COMPONENT,cpu,lab\n")
        for number in (signal.SIGINT, signal.SIGTERM, signal.SIGHUP):
            for words in ((str(TOOLS / "plot"),), (str(TOOLS / "preset_lines"), "unit")):
                self.assertEqual(self.end(number, *words), (128 + number, b""), (number, words))

    def ended_by(self, number: int, *words: str, **variables: str) -> tuple[int, bytes]:
        """The status of a tool that is sent a signal when a program that it has started has written
        its number into `pid`, and is slow. No such program is left."""
        pid = self.folder / "pid"
        pid.unlink(missing_ok=True)
        child = subprocess.Popen(
            words, stdin=subprocess.DEVNULL, stderr=subprocess.PIPE, cwd=self.folder,
            env={**os.environ, **variables}, preexec_fn=end_by_signals,
        )
        end = time.monotonic() + PATIENCE
        while not (pid.exists() and pid.read_text().strip()) and time.monotonic() < end:
            time.sleep(0.01)
        child.send_signal(number)
        _, told = child.communicate(timeout=PATIENCE)
        self.assertTrue(is_soon_over(pid.read_text().strip()))
        return child.returncode, told

    def script(self, name: str, text: str) -> str:
        path = self.write(name, f"#!/bin/sh\n{text}")
        Path(path).chmod(0o755)
        return path

    def test_nothing_is_left_behind(self) -> None:
        """What a tool has started is ended, and its folder is gone."""
        (self.folder / "tmp").mkdir()
        slow = self.script("slow", "echo $$ >\"$1.pid\"\n"
                                   "case $* in *probe.c*) echo $$ >pid; exec sleep 60 ;; esac\n"
                                   "exec cc \"$@\"\n")
        for number in (signal.SIGINT, signal.SIGTERM, signal.SIGHUP):
            ended = self.ended_by(
                number, str(TOOLS / "make_fortran"), "--check", CC=slow,
                TMPDIR=str(self.folder / "tmp"),
            )
            self.assertEqual((ended, os.listdir(self.folder / "tmp")), ((128 + number, b""), []))

    @needs_command("valgrind", "valgrind")
    def test_nothing_is_left_of_the_tool_of_valgrind(self) -> None:
        """It is built when it is used first."""
        slow = self.script("slow", f"echo $$ >{self.folder}/pid\nexec sleep 60\n")
        for number in (signal.SIGINT, signal.SIGTERM, signal.SIGHUP):
            ended = self.ended_by(
                number, str(TOOLS / "record"), "-o", "stream", "/bin/true", CC=slow,
                XDG_CACHE_HOME=str(self.folder / "cache"),
            )
            left = [
                path for path in (self.folder / "cache").rglob("*")
                if path.name.startswith("kistalub-")
            ]
            self.assertEqual((ended, left), ((128 + number, b""), []))

    def test_what_compiles_for_a_report_may_clean_up(self) -> None:
        (self.folder / "bin").mkdir()
        self.script("bin/papi", f"trap 'echo >{self.folder}/cleaned; exit 143' TERM\n"
                                f"echo $$ >{self.folder}/pid\nwhile :; do sleep 0.05; done\n")
        code = ("import pathlib, sys\nfrom parts.command import end_with\n"
                "from parts.report import asking\nasking.ROOT = pathlib.Path(sys.argv[1])\n"
                "def work():\n with asking.Tools(asking.Tables('unit')):\n  pass\n"
                "end_with('report', work)\n")
        for number in (signal.SIGINT, signal.SIGTERM, signal.SIGHUP):
            ended = self.ended_by(
                number, sys.executable, "-B", "-c", code, str(self.folder), PYTHONPATH=str(TOOLS)
            )
            self.assertEqual(ended, (128 + number, b""))
            (self.folder / "cleaned").unlink()

    def test_a_signal_while_a_program_is_started(self) -> None:
        """It comes when the program runs already, and the tool does not know of it yet."""
        begun = (
            "real = subprocess.Popen\ndef started(*words, **more):\n child = real(*words, **more)\n"
            " os.kill(os.getpid(), signal.SIGTERM)\n return child\nsubprocess.Popen = started\n"
        )
        slow = self.script("slow", f"echo $$ >{self.folder}/pid\nexec sleep 60\n")
        record = ("from parts import recording, valgrind\nfrom parts.machine import MACHINES\n"
                  "recording._words = lambda *any: []\n"
                  "valgrind.environment = lambda *any: None\nvalgrind.tool = lambda: None\n"
                  "valgrind.command = lambda words, path, arguments: [path]\n"
                  "def work():\n recording.record(recording.Wanted(sys.argv[1], [], "
                  "MACHINES['skl']), 'stream', '')\n")
        report = (
            "from parts.report.asking import _answer_of\ndef work():\n"
            " _answer_of([sys.argv[1]], os.environ)\n"
        )
        for work in (record, report):
            code = (
                "import os, signal, subprocess, sys\nfrom parts.command import end_with\n"
                f"{work}{begun}end_with('it', work)\n"
            )
            (self.folder / "pid").unlink(missing_ok=True)
            done = subprocess.run(
                [sys.executable, "-B", "-c", code, slow], cwd=self.folder,
                env={**os.environ, "PYTHONPATH": str(TOOLS)}, capture_output=True,
            )
            self.assertEqual((done.returncode, done.stderr), (128 + signal.SIGTERM, b""))
            found = (
                (self.folder / "pid").read_text().strip() if (self.folder / "pid").exists() else ""
            )
            self.assertFalse(found and Path("/proc", found).exists())

    def test_an_interrupt_of_an_import_is_quiet(self) -> None:
        code = (
            "import os, signal\nimport parts.quiet\nos.kill(os.getpid(), signal.SIGINT)\n"
            "print('done')\n"
        )
        for trap, status, said in (
            ("trap - INT", -signal.SIGINT, b""), ("trap '' INT", 0, b"done\n"),
        ):
            done = subprocess.run(
                ["sh", "-c", f"{trap}; exec \"$@\"", "sh", sys.executable, "-B", "-c", code],
                env={**os.environ, "PYTHONPATH": str(TOOLS)}, capture_output=True,
                preexec_fn=end_by_signals,
            )
            self.assertEqual((done.returncode, done.stdout, done.stderr), (status, said, b""))

    def test_a_signal_that_is_ignored_stays_so(self) -> None:
        code = (
            "import os, signal\nfrom parts.command import end_with\ndef work():\n"
            " os.kill(os.getpid(), signal.SIGHUP)\n print('done')\nend_with('it', work)\n"
        )
        done = self.shell(
            "trap '' HUP; exec \"$@\"", sys.executable, "-B", "-c", code, PYTHONPATH=str(TOOLS)
        )
        self.assertEqual((done.returncode, done.stdout), (0, b"done\n"))


class Crates(Ending):
    def test_a_ring_is_told(self) -> None:
        for work in (below, levels):
            with self.assertRaisesRegex(Fault, "^crates that cite one another in a ring: a, b, c$"):
                work({"a": ["b"], "b": ["c"], "c": ["a"], "d": ["a"]})

    def test_a_long_chain(self) -> None:
        chain = {f"c{number}": [f"c{number - 1}"] if number else [] for number in range(3000)}
        self.assertEqual(levels(chain)["c2999"], 2999)
        self.assertEqual(len(below(chain)["c2999"]), 2999)

    def test_a_line_without_a_name(self) -> None:
        self.write("crates.txt", "a:\n\n : a\n")
        with self.assertRaisesRegex(Fault, "^crates.txt: line 3: no name before the colon$"):
            read_crates(self.folder / "crates.txt")


@needs_command("cc", "a C compiler")
class Compilers(Ending):
    def test_an_empty_name_is_cc(self) -> None:
        for name in ("", "  "):
            self.assert_told(self.shell("$tools/make_fortran --check", CC=name), 0, "")

    def test_what_is_no_compiler(self) -> None:
        """Nothing is written."""
        self.write("noise", "#!/bin/sh\nprintf '\\377 no\\n' >&2\nexit 1\n")
        (self.folder / "noise").chmod(0o755)
        cases = {
            "true": "papi.h: true gives nothing of it",
            "false": "papi.h: not read",
            "/nowhere/cc": "no C compiler: /nowhere/cc: No such file or directory",
            str(self.folder): f"no C compiler: {self.folder}: Permission denied",
            "./noise": "papi.h: \ufffd no",
        }
        before = (ROOT / "include/fpapi.h").read_bytes()
        for name, cause in cases.items():
            self.assert_told(
                self.shell("$tools/make_fortran", CC=name), 1, f"make_fortran: {cause}\n"
            )
        self.assertEqual((ROOT / "include/fpapi.h").read_bytes(), before)


class EventFiles(Ending):
    def fault(self, text: str) -> str:
        try:
            read_event_files([self.write("x.json", text)])
        except Fault as fault:
            return str(fault).replace(f"{self.folder}/", "")
        return ""

    def test_files_that_say_nothing(self) -> None:
        for text, said in (
            ("[]", "a list without an event"),
            ("{}", "not a list of events, as perf's event files are"),
            (
                "[{}]",
                (
                    "event 1: it has no key, and perf's event files have EventName, EventCode, "
                    "UMask and Counter"
                ),
            ),
            (
                '[{"EventName": "A", "EventCode": "0x1"}]',
                "no event of the core has its counters there",
            ),
            (
                '[{"Unit": "CBO", "Counter": "0", "EventCode": "0x1"}]',
                "no event of the core has its counters there",
            ),
        ):
            self.assertEqual(self.fault(text), f"x.json: {said}", text)
        self.assertEqual(self.fault('[{"EventCode": "0xc0", "Counter": "0,1"}]'), "")

    def test_files_that_are_none(self) -> None:
        self.assertIn("x.json: not a list of events", self.fault("[" * 100_000))
        self.assertIn("x.json: not a list of events", self.fault("[" + "9" * 5000 + "]"))
        self.assertIn(
            "has no number where one belongs",
            self.fault('[{"EventCode": "%s", "Counter": "0"}]' % ("9" * 5000)),
        )
        self.assertIn("not a text file", self.fault_of_bytes(b"\xff"))

    def fault_of_bytes(self, content: bytes) -> str:
        (self.folder / "x.json").write_bytes(content)
        with self.assertRaises(Fault) as caught:
            read_event_files([str(self.folder / "x.json")])
        return str(caught.exception)
