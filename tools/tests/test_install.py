"""bin/install over a tree whose program and libraries are stand-ins: its words, what it puts where,
and what a signal leaves."""

from __future__ import annotations

import os
import re
import shlex
import shutil
import signal
import subprocess
import sys
import time
import unittest
from pathlib import Path

from tests.support import ROOT, InFolder, some

PARTS = (
    "bin", "include", "man", "completions", "tools", "VERSION", "examples/recorded.unit",
    "examples/recorded.presets",
)
BUILD = (
    '#!/bin/sh\necho "$$" >"${WAITS:-/dev/null}"\n[ -z "${WAITS-}" ] || sleep 60\n'
    'echo a >"$1/libkistalub.a"\necho so >"$1/libpapi.so.7.0"\n'
)
PROGRAMS = ["papi_compare", "papi_count", "papi_plan", "papi_record"]
TOOLS = sorted(path.name for path in (ROOT / "bin").glob("papi_*"))
USAGE = "usage: install [--uninstall] [--program-suffix SUFFIX] PREFIX\n"
PATIENCE = 30  # seconds


def sleeps_below(process: str) -> bool:
    """Whether a process has started its sleep. A shell may lose an interrupt between the two."""
    children = Path(f"/proc/{process.strip()}/task/{process.strip()}/children")
    return bool(process.strip()) and any(
        Path(f"/proc/{child}/cmdline").read_bytes().startswith(b"sleep")
        for child in children.read_text().split()
    )


class Install(InFolder):
    def setUp(self) -> None:
        super().setUp()
        self.tree = self.folder / "a tree"
        for part in PARTS:
            (self.tree / part).parent.mkdir(parents=True, exist_ok=True)
            if (ROOT / part).is_dir():
                shutil.copytree(ROOT / part, self.tree / part)
            else:
                shutil.copy(ROOT / part, self.tree / part)
        self.put("c/build", BUILD)
        self.put("crates/papi/out/papi", '#!/bin/sh\necho "$0" "$@"\nexit 3\n')
        self.put("crates/papi_c/out/libpapi_c.a", "")
        (self.folder / "tmp").mkdir()
        self.prefix = self.folder / "it's a prefix"

    def put(self, name: str, text: str) -> None:
        path = self.tree / name
        path.parent.mkdir(parents=True, exist_ok=True)
        path.write_text(text, encoding="utf-8")
        path.chmod(0o755)

    def install(self, *words: object, **variables: str) -> subprocess.CompletedProcess[str]:
        environment = {**os.environ, "TMPDIR": str(self.folder / "tmp"), **variables}
        done = subprocess.run(
            [str(self.tree / "bin/install"), *map(str, words)], cwd=self.folder, env=environment,
            capture_output=True, text=True,
        )
        self.assertEqual(os.listdir(self.folder / "tmp"), [])
        return done

    def test_words_that_are_refused(self) -> None:
        for words in (
            (), ("",), ("-x",), ("a", "b"), ("--program-suffix", "-x"), ("--program-suffix",),
            ("--program-suffix", "a/b", "p"), ("--program-suffix=a b", "p"),
        ):
            done = self.install(*words)
            self.assertEqual((done.returncode, done.stdout, done.stderr), (2, "", USAGE), words)

    def test_what_is_not_built(self) -> None:
        for file, command in (
            ("crates/papi/out/papi", "cd crates/papi && rt run -- papi_soak 1"),
            ("crates/papi_c/out/libpapi_c.a", "cd crates/papi_c && rt lib"),
        ):
            (self.tree / file).rename(self.tree / "away")
            done = self.install(self.prefix)
            self.assertEqual(
                (done.returncode, done.stderr),
                (1, f"install: no such file: {self.tree}/{file} (it is built by: {command})\n"),
            )
            self.assertFalse(self.prefix.exists())
            (self.tree / "away").rename(self.tree / file)

    def test_what_is_where(self) -> None:
        done = self.install("--program-suffix=-x", self.prefix)
        self.assertEqual((done.returncode, done.stdout, done.stderr), (0, "", ""))
        self.assertEqual(
            sorted(path.name for path in (self.prefix / "bin").iterdir()),
            sorted(f"{tool}-x" for tool in (*TOOLS, *PROGRAMS)),
        )
        pages = sorted(path.name for path in (self.prefix / "share/man/man1").iterdir())
        self.assertEqual(pages, sorted(f"{tool}-x.1" for tool in (*TOOLS, *PROGRAMS)))
        for file in (
            "lib/libkistalub.a",
            "lib/kistalub/libpapi.so",
            "lib/kistalub/lib/libpapi.so.7.0",
            "lib/kistalub/include/papi.h",
            "lib/kistalub/lib/pkgconfig/papi.pc",
            "include/kistalub/kistalub.h",
            "share/kistalub/recording/tools/valgrind/build",
            "share/kistalub/recording/library/libpapi.so.7.0",
            "share/zsh/site-functions/_kistalub-x",  # fmt: skip
            "share/bash-completion/completions/papi_run-x",
            "share/bash-completion/completions/papi_count-x",
            "share/fish/vendor_completions.d/papi_run-x.fish",
        ):
            self.assertTrue((self.prefix / file).exists(), file)
        self.assertEqual(
            [
                str(path) for path in some(self.prefix.rglob("*"))
                if path.is_symlink() and not path.exists()
            ],
            [],
            "links to nothing",
        )
        for file in some((ROOT / "completions").iterdir()):
            suffixed = re.sub(
                "|".join((*TOOLS, *PROGRAMS)), lambda found: f"{found[0]}-x", file.read_text()
            )
            self.assertEqual(
                (self.prefix / "share/kistalub/completions" / file.name).read_text(), suffixed
            )
        self.assertTrue(os.access(self.prefix / "share/kistalub/completions/candidates", os.X_OK))
        self.assertIn(
            "prefix=${pcfiledir}/../..\n", (self.prefix / "lib/pkgconfig/kistalub.pc").read_text()
        )

    def test_the_scripts_run_the_program(self) -> None:
        self.install(self.prefix)
        program = self.prefix / "bin/../libexec/kistalub/papi"
        for tool in some(TOOLS):
            def run(*words: str) -> tuple[int, str]:
                done = subprocess.run(
                    [str(self.prefix / "bin" / tool), *words], capture_output=True, text=True,
                    env={**os.environ, "KISTALUB_HINTS": "0"},
                )
                return done.returncode, done.stdout

            self.assertEqual(run("a b", "-x"), (3, f"{program} {tool} a b -x\n"))
            usage = "".join((ROOT / "bin/usage" / name).read_text() for name in (tool, "statuses"))
            self.assertEqual((run("--help"), run()), ((0, usage), (2, usage)))
        full = subprocess.run(
            ["sh", "-c", '"$1" --help >/dev/full', "sh", str(self.prefix / "bin/papi_run")],
            capture_output=True,
        )
        self.assertEqual(full.returncode, 5)

    def test_the_prefix_can_be_moved(self) -> None:
        self.install(self.prefix)
        moved = self.folder / "elsewhere/a b"
        moved.parent.mkdir()
        self.prefix.rename(moved)
        link = self.folder / "papi_run"
        link.symlink_to(moved / "bin/papi_run")
        for name in (link, moved / "bin/papi_run"):
            done = subprocess.run(
                [str(name), "x"], capture_output=True, text=True,
                env={**os.environ, "KISTALUB_HINTS": "0"},
            )
            self.assertEqual(
                (done.returncode, done.stdout),
                (3, f"{moved}/bin/../libexec/kistalub/papi papi_run x\n"),
            )
        if shutil.which("pkg-config"):
            for name, place, wanted in (
                ("kistalub", "lib/pkgconfig", "lib"),
                ("PAPI", "lib/kistalub/lib/pkgconfig", "lib/kistalub"),
                ("PAPI", "lib/kistalub", "lib/kistalub"),
            ):
                words = [
                    "pkg-config", "--variable=libdir", "kistalub" if name == "kistalub" else "papi",
                ]
                told = subprocess.run(
                    words, capture_output=True, text=True,
                    env={**os.environ, "PKG_CONFIG_PATH": str(moved / place)},
                ).stdout
                self.assertEqual(
                    os.path.realpath(told.strip().replace("\\", "")), str(moved / wanted),
                    (name, place),
                )
                self.check_words(
                    [*words[:1], "--cflags", "--libs", words[2]], moved / place,
                    "kistalub" if name == "kistalub" else "papi",
                )
        self.assertEqual(
            [
                name for path in moved.rglob("*")
                if path.is_file() and str(self.prefix).encode() in path.read_bytes()
                for name in [path.name]
            ],
            [],
        )

    def check_words(self, command: list[str], place: Path, library: str) -> None:
        """The words for a compiler stay whole, though the prefix has a blank."""
        told = subprocess.run(
            command, capture_output=True, text=True,
            env={**os.environ, "PKG_CONFIG_PATH": str(place)},
        ).stdout
        include, folder, *more = shlex.split(told)
        self.assertEqual(
            (include[:2], folder[:2], more), ("-I", "-L", [f"-l{library}", "-lpthread"]), told
        )
        header = "kistalub.h" if library == "kistalub" else "papi.h"
        self.assertTrue(
            (Path(include[2:]) / header).is_file()
            and (Path(folder[2:]) / f"lib{library}.a").exists(),
            told,
        )

    def test_whoever_comes_can_read_it(self) -> None:
        subprocess.run(
            [
                "sh", "-c", 'umask 077 && exec "$@"', "sh", str(self.tree / "bin/install"),
                str(self.prefix),
            ],
            check=True,
        )
        for path in some(self.prefix.rglob("*")):
            if not path.is_symlink():
                wanted = 0o755 if path.is_dir() or os.access(path, os.X_OK) else 0o644
                self.assertEqual(path.stat().st_mode & 0o777, wanted, path)

    def test_what_runs_keeps_its_files(self) -> None:
        """Each file is another one after a second time, so that nobody who has the first one open
        sees it change. A program that runs can be replaced."""
        shutil.copy(shutil.which("sleep") or "", self.tree / "crates/papi/out/papi")
        self.install(self.prefix)
        running = subprocess.Popen([str(self.prefix / "libexec/kistalub/papi"), "60"])
        try:
            with open(self.prefix / "lib/kistalub/libpapi.so.7.0", "rb") as library:
                before = {
                    path: path.stat().st_ino for path in some(self.prefix.rglob("*"))
                    if path.is_file() and not path.is_symlink() and path.name != "files"
                }
                self.put("c/build", BUILD.replace("echo so ", "echo other "))
                done = self.install(self.prefix)
                self.assertEqual((done.returncode, done.stderr, library.read()), (0, "", b"so\n"))
            self.assertEqual(
                [str(path) for path, number in before.items() if path.stat().st_ino == number], []
            )
            self.assertIsNone(running.poll())
        finally:
            running.kill()
            running.wait()
        self.assertEqual(
            [path.name for path in self.prefix.iterdir() if path.name.startswith(".")], []
        )

    def test_what_an_earlier_version_had_goes(self) -> None:
        self.put("bin/hints/old.py", "")
        self.install(self.prefix)
        self.install("--program-suffix=-x", self.prefix)
        mine = self.prefix / "share/kistalub/mine"
        mine.write_text("")
        (self.tree / "bin/hints/old.py").unlink()
        old = self.prefix / "share/kistalub/hints/old.py"
        self.install(self.prefix)
        self.assertTrue(old.exists(), "the install with the suffix has it too")
        self.install("--program-suffix=-x", self.prefix)
        self.assertEqual((old.exists(), mine.exists()), (False, True))

    def test_it_is_taken_away(self) -> None:
        kept = self.prefix / "bin/kept"
        kept.parent.mkdir(parents=True)
        kept.write_text("")
        self.install(self.prefix)
        self.install("--program-suffix=-x", self.prefix)
        done = self.install("--uninstall", self.prefix)
        self.assertEqual((done.returncode, done.stdout, done.stderr), (0, "", ""))
        names = sorted(path.name for path in (self.prefix / "bin").iterdir())
        self.assertEqual(names, sorted(["kept", *(f"{tool}-x" for tool in (*TOOLS, *PROGRAMS))]))
        self.assertTrue((self.prefix / "libexec/kistalub/papi").exists())
        self.assertEqual(
            self.install("--uninstall", "--program-suffix=-x", self.prefix).returncode, 0
        )
        self.assertEqual(list(self.prefix.rglob("*")), [kept.parent, kept])
        again = self.install("--uninstall", self.prefix)
        self.assertEqual(
            (again.returncode, again.stderr),
            (
                1,
                (
                    "install: nothing is installed there: no such file: "
                    f"{self.prefix}/share/kistalub/files\n"
                ),
            ),
        )

    def test_hints_find_their_parts(self) -> None:
        self.put("crates/papi/out/papi", "#!/bin/sh\necho 'papi: bad words' >&2\nexit 2\n")
        self.put("bin/hints/formats/__pycache__/units.pyc", "")
        self.install(self.prefix)
        done = subprocess.run(
            [str(self.prefix / "bin/papi_run"), "s"], capture_output=True, text=True,
            env={**os.environ, "XDG_CACHE_HOME": str(self.folder / "cache")},
        )
        self.assertEqual(
            (done.returncode, done.stdout, done.stderr.splitlines()[:1]),
            (2, "", ["papi: bad words"]),
        )
        self.assertIn("\nhint: -U UNIT is missing", done.stderr)
        self.assertEqual(list(self.prefix.rglob("__pycache__")), [])

    def test_recording_finds_its_parts(self) -> None:
        self.install(self.prefix)
        for tool in ("papi_record", "papi_count", "papi_compare", "papi_plan"):
            done = subprocess.run(
                [str(self.prefix / "bin" / tool), "--help"], capture_output=True, text=True
            )
            self.assertEqual(
                (done.returncode, done.stderr, done.stdout.startswith(f"usage: {tool} ")),
                (0, "", True), done.stderr,
            )
        page = (
            "import sys; sys.path.insert(0, sys.argv[1]); from parts.report.frame import Top, "
            "framed; print(framed(Top('', '', [], '', ''), [], ''))"
        )
        words = [
            sys.executable, "-B", "-I", "-c", page,
            str(self.prefix / "share/kistalub/recording/tools"),
        ]
        done = subprocess.run(words, capture_output=True, text=True)
        self.assertTrue(done.stdout.startswith("<!DOCTYPE html>"), done.stderr)

    def test_a_staging_folder_and_a_second_time(self) -> None:
        for _ in range(2):
            done = self.install("usr", DESTDIR=str(self.folder / "staged"))
            self.assertEqual((done.returncode, done.stderr), (0, ""))
        self.assertTrue((self.folder / f"staged{self.folder}/usr/bin/papi_run").exists())
        self.assertFalse((self.folder / "usr").exists())

    def test_a_staging_folder_by_any_name(self) -> None:
        done = self.install("--program-suffix=-x", "/usr", DESTDIR="-staged here")
        self.assertEqual((done.returncode, done.stderr), (0, ""))
        self.assertTrue((self.folder / "-staged here/usr/bin/papi_run-x").exists())

    def test_a_step_that_fails_ends_it(self) -> None:
        self.put("c/build", "#!/bin/sh\necho no >&2\nexit 7\n")
        done = self.install(self.prefix)
        self.assertEqual((done.returncode, done.stderr, self.prefix.exists()), (7, "no\n", False))
        self.put("c/build", BUILD)
        self.prefix.write_text("a file")
        self.assertNotEqual(self.install(self.prefix).returncode, 0)

    def test_a_signal_to_all_while_its_folder_is_made_or_removed(self) -> None:
        (self.folder / "path").mkdir()
        for name, text in (
            ("rm", 'kill -s TERM 0\nPATH=${PATH#*:}\nexec rm "$@"\n'),
            ("mktemp", 'PATH=${PATH#*:}\nmade=$(mktemp "$@")\nkill -s TERM 0\necho "$made"\n'),
        ):
            path = self.folder / "path" / name
            path.write_text(f"#!/bin/sh\n{text}")
            path.chmod(0o755)
            environment = {
                **os.environ,
                "TMPDIR": str(self.folder / "tmp"),
                "PATH": f"{self.folder}/path:{os.environ['PATH']}",
            }
            done = subprocess.run(
                [str(self.tree / "bin/install"), str(self.prefix)], env=environment,
                start_new_session=True, capture_output=True,
            )
            self.assertEqual((done.returncode, os.listdir(self.folder / "tmp")), (143, []), name)
            path.unlink()

    @unittest.skipUnless(Path("/proc/self/task").exists(), "there is no /proc/self/task")
    def test_signals(self) -> None:
        for number in (signal.SIGHUP, signal.SIGINT, signal.SIGTERM):
            waits = self.folder / f"waits{number}"
            environment = {**os.environ, "TMPDIR": str(self.folder / "tmp"), "WAITS": str(waits)}
            child = subprocess.Popen(
                [str(self.tree / "bin/install"), str(self.prefix)],
                env=environment,
                start_new_session=True,
                stderr=subprocess.PIPE,
                preexec_fn=lambda: [
                    signal.signal(each, signal.SIG_DFL)
                    for each in (signal.SIGHUP, signal.SIGINT, signal.SIGTERM)
                ],
            )
            end = time.monotonic() + PATIENCE
            while (
                not (waits.exists() and sleeps_below(waits.read_text())) and time.monotonic() < end
            ):
                time.sleep(0.01)
            os.killpg(child.pid, number)
            child.communicate(timeout=PATIENCE)
            self.assertEqual(
                (child.returncode, os.listdir(self.folder / "tmp"), self.prefix.exists()),
                (128 + number, [], False),
            )
