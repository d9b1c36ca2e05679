"""How the scripts in bin/ run the program, over one of sh: what it writes comes while it runs,
signals reach it, and Python starts only where there may be a hint."""

from __future__ import annotations

import os
import shutil
import signal
import subprocess
import tempfile
import time
from pathlib import Path
from typing import Sequence

from tests.hint_cases import FILES, STREAM, SYMBOLS
from tests.support import InFolder, needs_command
from tests.test_hints import PLACE, make_tree
from tests.test_progress import take_interrupts

PATIENCE = 60  # seconds
ENDING = (signal.SIGHUP, signal.SIGINT, signal.SIGQUIT, signal.SIGTERM)
QUIET = (
    ("papi_run", "1 0 create PAPI_OK 0"), ("papi_run", "1 0 stop PAPI_OK 0"),
    ("papi_native_avail", "Total events: 8"), ("papi_event_chooser", "Total events: 2"),
    ("papi_profil", "total 3"),
    ("papi_avail", f"Of {len(SYMBOLS)} possible events, 10 are available, of which 3 are derived."),
    ("papi_decode", "PRESET,PAPI_TOT_INS,NOT_DERIVED,X"), ("papi_regions", "0 outer 1 7"),
    ("papi_encode", "lab::X 0x5300c0"), ("papi_soak", "sum 4"),
)
TELLING = (
    ("papi_run", "1 0 add PAPI_ENOEVST"), ("papi_native_avail", "Total events: 0"),
    ("papi_event_chooser", "Total events: 0"), ("papi_profil", "total 0"),
    ("papi_avail", f"Of {len(SYMBOLS)} possible events, 0 are available, of which 0 are derived."),
    ("papi_avail", "Available: No"), ("papi_decode", "CPU,lab"),
)

SILENT_CALLS = (
    ("papi_run", "6 0 stop PAPI_OK 0", "-U u s t"),
    ("papi_run", "6 0 stop PAPI_OK 5", "-Uu -Pp -C small --workers 2 s t"),
    ("papi_profil", "total 3", "-U u -M m s t"),
    ("papi_regions", "0 outer 1 7 0", "-U u --events loads r t"),
    ("papi_regions", "0 outer 1 7", "-U u -P p --events=BOTH -Csmall -- r t"),
)


def is_alive(process: int) -> bool:
    try:
        return Path(f"/proc/{process}/stat").read_text().rpartition(")")[2].split()[0] != "Z"
    except OSError:
        return False


class Running(InFolder):
    def setUp(self) -> None:
        super().setUp()
        self.bin = make_tree(self.folder)
        self.temporary = self.folder / "temporary"
        self.temporary.mkdir()

    def program(self, *lines: str) -> None:
        path = self.write(PLACE, "\n".join(("#!/bin/sh", *lines, "")))
        os.chmod(path, 0o755)

    def start(
        self, tool: str = "papi_run", by: Sequence[str] = (), **how: object
    ) -> subprocess.Popen[bytes]:
        given = {
            "stdin": subprocess.DEVNULL,
            "stdout": subprocess.PIPE,
            "stderr": subprocess.PIPE,
            **how,
        }
        environment = {
            **os.environ,
            "TMPDIR": str(self.temporary),
            "PATH": f"{self.folder}/path:{os.environ['PATH']}",
            "XDG_CACHE_HOME": f"{self.folder}/cache",
        }
        return subprocess.Popen(  # type: ignore[call-overload]
            [*by, str(self.bin / tool), "s"], cwd=self.folder, env=environment,
            preexec_fn=take_interrupts, **given,
        )

    def wait_for(self, name: str) -> str:
        """What a file has as soon as it is there."""
        for _ in range(100 * PATIENCE):
            if (self.folder / name).exists() and (
                text := (self.folder / name).read_text()
            ).endswith("\n"):
                return text
            time.sleep(0.01)
        raise AssertionError(f"no {name}")

    def count_pythons(self) -> None:
        """Puts a python3 first that leaves a file behind."""
        (self.folder / "path").mkdir()
        path = self.write("path/python3", f"#!/bin/sh\necho >'{self.folder}/python'\n")
        os.chmod(path, 0o755)

    def test_what_is_said_comes_while_the_program_runs(self) -> None:
        for how in ({}, {"stderr": subprocess.STDOUT}):
            self.program(
                "echo first >&2", "until [ -e go ]; do sleep 0.01; done", "echo second >&2"
            )
            child = self.start(**how)
            heard = child.stderr or child.stdout
            assert heard is not None
            self.assertEqual(heard.readline(), b"first\n")
            (self.folder / "go").touch()
            self.assertEqual((heard.readline(), child.wait(PATIENCE)), (b"second\n", 0))
            child.communicate()
            (self.folder / "go").unlink()

    def test_outputs_that_are_one_stay_in_order(self) -> None:
        self.program("for i in 1 2 3 4 5 6 7 8 9; do echo out $i; echo said $i >&2; done", "exit 3")
        out, _ = self.start(stderr=subprocess.STDOUT).communicate()
        self.assertEqual(out.decode(), "".join(f"out {i}\nsaid {i}\n" for i in range(1, 10)))

    def test_a_signal_to_the_script_alone_ends_the_program(self) -> None:
        for number in ENDING:
            self.program('echo "$$" >process', "exec sleep 60")
            child = self.start()
            process = int(self.wait_for("process"))
            child.send_signal(number)
            # bash does not end by SIGQUIT
            self.assertIn(child.wait(PATIENCE), (-number, 128 + number))
            self.assertFalse(is_alive(process), number)
            self.assertEqual(
                (child.communicate(), list(self.temporary.iterdir())), ((b"", b""), []), number
            )
            (self.folder / "process").unlink()

    def test_a_word_of_the_shell_that_nobody_reads(self) -> None:
        """It says on standard error that a signal ended what it has started."""
        (self.folder / "path").mkdir()
        os.chmod(
            self.write(
                "path/cat",
                (
                    f"#!/bin/sh\nuntil [ -e '{self.folder}/go' ]; do sleep 0.01; done\n"
                    "kill -s HUP $$\n"
                ),
            ),
            0o755,
        )
        self.program("echo 'papi: bad words' >&2", "exit 2")
        child = self.start(stdout=subprocess.DEVNULL)
        assert child.stderr is not None
        self.assertEqual(child.stderr.readline(), b"papi: bad words\n")
        child.stderr.close()
        (self.folder / "go").touch()
        self.assertEqual((child.wait(PATIENCE), list(self.temporary.iterdir())), (2, []))

    def test_a_signal_to_all_while_the_folder_is_removed(self) -> None:
        (self.folder / "path").mkdir()
        os.chmod(
            self.write("path/rm", '#!/bin/sh\nkill -s TERM 0\nPATH=${PATH#*:}\nexec rm "$@"\n'),
            0o755,
        )
        for lines, status in (
            (("echo out",), 0), (('kill -s TERM "$PPID"', "exec sleep 60"), -signal.SIGTERM),
        ):
            self.program(*lines)
            child = self.start(start_new_session=True)
            child.communicate()
            self.assertEqual(
                (child.returncode, list(self.temporary.iterdir())), (status, []), lines
            )

    @needs_command("bash", "bash")
    def test_bash_does_not_end_by_each_signal(self) -> None:
        """The status says by which it was to end."""
        for number, status in (
            (signal.SIGHUP, -signal.SIGHUP), (signal.SIGINT, -signal.SIGINT),
            (signal.SIGQUIT, 128 + signal.SIGQUIT), (signal.SIGTERM, -signal.SIGTERM),
        ):
            self.program('echo "$$" >process', "exec sleep 60")
            child = self.start("papi", ("bash", "-c", 'exec bash "$0" --tool papi_run s'))
            process = int(self.wait_for("process"))
            child.send_signal(number)
            self.assertEqual(
                (child.wait(PATIENCE), is_alive(process), child.communicate()),
                (status, False, (b"", b"")), number,
            )
            (self.folder / "process").unlink()

    def test_a_program_that_loses_a_signal_has_it_again(self) -> None:
        """As one may that was started a moment ago. Here the first one changes nothing."""
        self.program(
            "trap 'trap - TERM' TERM", 'echo "$$" >process', "tries=0",
            f"while [ $tries != {20 * PATIENCE} ]; do sleep 0.1; tries=$((tries + 1)); done",
        )
        child = self.start()
        process = int(self.wait_for("process"))
        child.send_signal(signal.SIGTERM)
        child.communicate(timeout=PATIENCE)
        self.assertEqual((child.returncode, is_alive(process)), (-signal.SIGTERM, False))

    def test_a_program_that_a_signal_ends(self) -> None:
        for name in ("TERM", "KILL", "SEGV"):
            self.program(f"kill -{name} $$")
            child = self.start()
            child.communicate()
            self.assertEqual(child.returncode, 128 + signal.Signals[f"SIG{name}"].value, name)

    def test_no_folder_is_left(self) -> None:
        self.program("echo '1 0 add PAPI_ENOEVST'", "echo 'papi: s: too large' >&2", "exit 2")
        self.start().communicate()
        self.assertEqual(list(self.temporary.iterdir()), [])

    def test_a_program_that_is_older_than_its_sources(self) -> None:
        tree = self.folder / "a tree"
        tree.mkdir()
        self.bin = make_tree(tree)
        os.chmod(self.write(f"a tree/{PLACE}", "#!/bin/sh\n"), 0o755)
        for name in ("crates.txt", "crates/some/src/a.rt", "crates/some/specs/A.antt"):
            (tree / name).parent.mkdir(parents=True, exist_ok=True)
            self.write(f"a tree/{name}", "")
            said = (
                f"papi: the proved program is older than {name} (build it by: cd crates/papi && rt "
                "run -- papi_soak 1)\n"
            )
            for time_of, wanted in ((1 << 32, said), (0, "")):
                os.utime(tree / name, (time_of, time_of))
                child = self.start()
                self.assertEqual(
                    (*child.communicate(), child.returncode), (b"", wanted.encode(), 0), name
                )

    def test_a_temporary_folder_by_any_name(self) -> None:
        self.count_pythons()
        self.temporary = Path("-tmp")
        (self.folder / "-tmp").mkdir()
        self.program("echo '1 0 add PAPI_ENOEVST'", "echo '2 0 read PAPI_OK 5'")
        child = self.start()
        self.assertEqual(
            (*child.communicate(), child.returncode),
            (b"1 0 add PAPI_ENOEVST\n2 0 read PAPI_OK 5\n", b"", 0),
        )
        self.assertEqual(
            ((self.folder / "python").exists(), os.listdir(self.folder / "-tmp")), (True, [])
        )

    def test_an_error_output_whose_reader_is_gone(self) -> None:
        reading, writing = os.pipe()
        os.close(reading)
        self.program("echo 'papi: bad words' >&2", "exit 2")
        child = self.start(stderr=writing)
        os.close(writing)
        child.communicate()
        self.assertEqual(child.returncode, 5)

    def test_an_output_whose_reader_is_gone(self) -> None:
        reading, writing = os.pipe()
        os.close(reading)
        self.program("echo '1 0 create PAPI_OK 0'")
        child = self.start(stdout=writing)
        os.close(writing)
        child.communicate()
        self.assertEqual(child.returncode, 5)

    def test_without_a_temporary_folder(self) -> None:
        shutil.rmtree(self.temporary)
        self.program("echo out", "echo 'papi: bad words' >&2", "exit 2")
        child = self.start()
        self.assertEqual(
            (child.communicate(), child.returncode), ((b"out\n", b"papi: bad words\n"), 2)
        )

    def test_python_starts_only_where_there_may_be_a_hint(self) -> None:
        self.count_pythons()
        for status, answers, starts in ((0, QUIET, False), (0, TELLING, True)):
            for tool, line in answers:
                self.program(f"echo '{line}'", f"exit {status}")
                for how in ({}, {"stderr": subprocess.STDOUT}):
                    self.start(tool, **how).communicate()
                    self.assertEqual((self.folder / "python").exists(), starts, f"{tool}: {line}")
                    (self.folder / "python").unlink(missing_ok=True)

    def test_python_does_not_start_where_each_event_has_a_line(self) -> None:
        """A value of 0, or one of a preset, is looked at without Python."""
        self.count_pythons()
        for name, text in FILES.items():
            self.write(name, text)
        self.write("s", "0 create\n0 add 0 Instructions\n0 add 0 loads:ALL\n0 add 0 BOTH\n"
                        "0 start 0\n0 stop 0\n")
        for line, starts in (
            ("0 d0 01 u 1 1", False), ("0 D0 82 k 1 1", False), ("0 d0 04 u 1 1", True),
            ("1 d0 01 u 1 1", True), ("10 d0 01 u 1 1", True),
        ):
            self.write("t", STREAM + line + "\n")
            for tool, answer, words in SILENT_CALLS:
                self.program(f"echo '{answer}'")
                environment = {
                    **os.environ,
                    "PATH": f"{self.folder}/path:{os.environ['PATH']}",
                    "TMPDIR": str(self.temporary),
                    "XDG_CACHE_HOME": f"{self.folder}/cache",
                }
                subprocess.run(
                    [str(self.bin / tool), *words.split()], cwd=self.folder, env=environment,
                    capture_output=True,
                )
                self.assertEqual((self.folder / "python").exists(), starts, (line, tool))
                (self.folder / "python").unlink(missing_ok=True)

    def test_strict(self) -> None:
        """A refusal, or an event that no line counts for, makes 1 of 0."""
        for name, text in FILES.items():
            self.write(name, text)
        for script, reply, wanted in (
            (
                "0 create\n0 add 0 INSTRUCTIONS\n0 start 0\n0 run 9\n0 stop 0\n",
                "5 0 stop PAPI_OK 400", 0,
            ),
            ("0 create\n0 add 0 LOADS\n0 start 0\n0 run 9\n0 stop 0\n", "5 0 stop PAPI_OK 0", 1),
            ("0 create\n0 stop 0\n", "2 0 stop PAPI_ENOTRUN", 1),
        ):
            self.write("s", script)
            for ending in (0, 2, 3, 4, 5):
                self.program(f"echo '{reply}'", f"exit {ending}")
                for words in ("--strict -U u s t", "-U u --quiet s --strict t", "-U u s t"):
                    done = subprocess.run(
                        [str(self.bin / "papi_run"), *words.split()], cwd=self.folder,
                        capture_output=True, text=True,
                    )
                    self.assertEqual(
                        done.returncode, wanted if "--strict" in words and not ending else ending,
                        (reply, words, ending),
                    )
                    self.assertEqual(done.stdout, f"{reply}\n")
                    if "--quiet" in words:
                        self.assertEqual(done.stderr, "")
        self.program('echo "$@"')
        done = subprocess.run(
            [str(self.bin / "papi_run"), "--", "--strict"], cwd=self.folder, capture_output=True,
            text=True,
        )
        self.assertEqual((done.stdout, done.returncode), ("papi_run -- --strict\n", 0))

    def test_strict_without_hints(self) -> None:
        for name, text in FILES.items():
            self.write(name, text)
        self.write("s", "0 create\n0 add 0 LOADS\n0 start 0\n0 run 9\n0 stop 0\n")
        self.program("echo '5 0 stop PAPI_OK 0'")
        done = subprocess.run(
            [str(self.bin / "papi_run"), *"--strict -U u s t".split()], cwd=self.folder,
            capture_output=True, env={**os.environ, "KISTALUB_HINTS": "0"},
        )
        self.assertEqual((done.stderr, done.returncode), (b"", 1))

    def test_strict_of_a_profile_runs_the_script_for_its_refusals(self) -> None:
        for name, text in FILES.items():
            self.write(name, text)
        self.write("a unit", FILES["u"])
        self.program(
            'if [ "$1" = papi_run ]; then printf "%s," "$@" >ran; echo "2 0 add PAPI_ENOEVNT"; '
            'else echo total 3; fi'
        )
        done = subprocess.run(
            [
                str(self.bin / "papi_profil"), "--strict", "-U", "a unit",
                *"-M m --set 0 -P p -C small s t".split(),
            ],
            cwd=self.folder,
            capture_output=True,
        )
        self.assertEqual((done.stdout, done.returncode), (b"total 3\n", 1))
        self.assertEqual(
            (self.folder / "ran").read_text(), "papi_run,-U,a unit,-P,p,-C,small,--,s,t,"
        )

    def test_a_temporary_folder_of_two_words(self) -> None:
        self.temporary = self.folder / "two words"
        self.temporary.mkdir()
        self.program("echo out", "echo line >&2", "exit 1")
        self.assertEqual(self.start().communicate(), (b"out\n", b"line\n"))
        self.assertEqual(list(self.temporary.iterdir()), [])

    def test_bytes_of_all_kinds(self) -> None:
        everything = bytes(number for number in range(1, 256))
        (self.folder / "bytes").write_bytes(everything + b"\n\n")
        self.program("cat bytes", "cat bytes >&2", "exit 3")
        self.assertEqual(self.start().communicate(), (everything + b"\n\n", everything + b"\n\n"))

    def test_statuses_after_which_there_may_be_a_hint(self) -> None:
        """1 and 2, but for a soak that says no by itself. What ended with a fault of a file, of
        memory or of an output says all."""
        self.count_pythons()
        starting = [
            (tool, status) for tool in ("papi_run", "papi_encode", "papi_soak") for status in (1, 2)
            if (tool, status) != ("papi_soak", 1)
        ]
        for tool, status in [
            *starting, *(("papi_run", status) for status in (3, 4, 5)), ("papi_encode", 3),
            ("papi_soak", 1),
        ]:
            self.program(f"exit {status}")
            child = self.start(tool)
            child.communicate()
            self.assertEqual(
                (child.returncode, (self.folder / "python").exists()),
                (status, (tool, status) in starting), tool,
            )
            (self.folder / "python").unlink(missing_ok=True)

    def test_descriptors_and_standard_input(self) -> None:
        self.program("cat; cat <&6; cat <&7; cat <&8; cat <&9")
        given = "6<six 7<seven 8<eight 9<nine"
        words = (
            f"printf in | {self.bin / 'papi_run'} s {given}; printf in | {self.bin / 'papi_run'} s "
            f"{given} <&-"
        )
        for name in ("six", "seven", "eight", "nine"):
            self.write(name, name)
        with tempfile.TemporaryFile() as heard:
            done = subprocess.run(
                ["/bin/sh", "-c", words], stdout=subprocess.PIPE, stderr=heard, cwd=self.folder,
                env={**os.environ, "TMPDIR": str(self.temporary)},
            )
        self.assertEqual(done.stdout, b"insixseveneightnine" + b"sixseveneightnine")
