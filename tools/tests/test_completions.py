"""What the shells put on the line: in interactive ones, over tools that print what is written here,
and over the program with the lab unit."""

from __future__ import annotations

import os
import subprocess
import threading
import time
import unittest
from pathlib import Path
from typing import Iterable

from tests.shells import TAB, Shell
from tests.support import ROOT, InFolder, installed, needs_command, needs_library, needs_program

SHELLS = ("bash", "zsh", "fish")
EVERY = "\x1b*"  # bash alone: puts all that can stand there on the line
UNIT = "-U examples/lab.unit"
PRESETS = "-P examples/lab.presets"
NAMES = sorted(path.name for path in (ROOT / "bin").glob("papi_*"))

# Line, and the words at its end after all that can stand there was put on it.
LAB: list[tuple[str, list[str]]] = [
    ("papi_run --w", ["--workers"]),
    ("papi_soak -", ["--workers"]),
    ("papi_avail -U examples/lab.u", ["examples/lab.unit"]),
    (f"papi_avail {UNIT} {PRESETS} -C o", ["other"]),
    (f"papi_avail {UNIT} {PRESETS} -C lab2 -e PAPI_BR_M", ["PAPI_BR_MSP"]),
    (f"papi_event_chooser {UNIT} N", ["NATIVE"]),
    (f"papi_event_chooser {UNIT} NATIVE wire::", ["wire::PACKETS"]),
    (f"papi_encode {UNIT} lab::MEM:", ["lab::MEM:LOADS", "STORES"]),
    (f"papi_regions {UNIT} --events lab::CYCLES,lab::RE", ["lab::CYCLES,lab::REF"]),
    (f"papi_regions {UNIT} --events=lab::RE", ["--events=lab::REF"]),
    ("papi_run examples/first.sc", ["examples/first.script"]),
    ("papi_run --workers ", []),
]

# A tool that knows two events and two presets of any unit that is there, and says which units it
# was asked for.
FAKE = """#!/bin/sh
case ${1-} in
--help) exec cat ROOT/bin/usage/NAME ROOT/bin/usage/statuses ;;
--show) shift; printf '<%s>' "$@" >shown.new; exec mv shown.new shown ;;
esac
for word in "$@"; do
    case $word in
    -U=*) [ -e "${word#-U=}" ] || exit 2; echo "${word#-U=}" >>asked ;;
    -P=*) [ -e "${word#-P=}" ] || exit 2 ;;
    -C=*) [ "$word" = "-C=c d" ] || exit 2 ;;
    esac
done
case NAME in
papi_native_avail) printf 'lab::CYCLES  Cycles\\nlab::MEM  Memory\\n  :LOADS  Loads\\n' ;;
papi_avail) printf 'PAPI_TOT_INS 0x1 Yes\\nPAPI_TOT_CYC 0x2 Yes\\n' ;;
esac
"""
HOSTILE = [
    "a$(touch FILE)", "b`touch FILE`", "c;touch FILE", "d'e\"f", 'g"$(touch FILE)"', "h>FILE",
    "i*?[x]", "~", "j{k..l}", "m!n", "o&touch FILE", "-p", "q\\r", "#s", "t u", "v'",
]


def make_tools(folder: Path) -> Path:
    """A folder with such tools."""
    place = folder / "tools"
    place.mkdir()
    for name in NAMES:
        path = place / name
        path.write_text(FAKE.replace("ROOT", str(ROOT)).replace("NAME", name), encoding="utf-8")
        path.chmod(0o755)
    return place


class Interactive(InFolder):
    """A shell of each kind that is installed, in a folder of its own."""

    def environment(self, place: Path) -> dict[str, str]:
        return {**os.environ, "PATH": f"{place}:{os.environ['PATH']}", "HOME": str(self.folder)}

    def shells(
        self, names: Iterable[str] = SHELLS, place: Path | None = None
    ) -> Iterable[tuple[str, Shell]]:
        """Each shell in turn, in a new folder `inside`, which the one after it has for itself
        again."""
        place = place or make_tools(self.folder)
        for name in names:
            if subprocess.run(["sh", "-c", f"command -v {name}"], capture_output=True).returncode:
                continue
            folder = self.folder / f"in_{name}"
            folder.mkdir()
            shell = Shell(name, folder, {**self.environment(place), "HOME": str(folder)})
            self.addCleanup(shell.end)
            yield name, shell


class Hostile(Interactive):
    """What files say is neither run nor expanded, neither when it is listed nor when it is put on
    the line and the line is run."""

    def test_names_of_processors(self) -> None:
        for name, shell in self.shells():
            (shell.folder / "e.presets").write_text(
                "".join(f"CPU,{cpu}\n" for cpu in HOSTILE), encoding="utf-8"
            )
            (shell.folder / "lab.unit").touch()
            begun = "papi_avail --show -U lab.unit -P e.presets -C "
            self.assertEqual(shell.after(begun), begun)
            for cpu in HOSTILE:
                if name == "fish" and cpu in ("~", "-p", "#s"):
                    continue  # fish takes these as the beginning of something else
                first = {"~": "\\~", "#s": "\\#", "-p": "-"}.get(cpu, cpu[0])
                line = shell.after(begun + first)
                self.assertEqual(
                    shell.run(line, "shown"), f"<-U><lab.unit><-P><e.presets><-C><{cpu}>", line
                )
                self.assertFalse((shell.folder / "FILE").exists(), cpu)

    def test_in_quotes_of_bash(self) -> None:
        for _, shell in self.shells(("bash",)):
            (shell.folder / "e.presets").write_text(
                "".join(f"CPU,{cpu}\n" for cpu in HOSTILE), encoding="utf-8"
            )
            for quote in ("'", '"'):
                for cpu in HOSTILE:
                    line = shell.after(f"papi_avail --show -P e.presets -C {quote}{cpu[0]}")
                    self.assertEqual(shell.run(line, "shown"), f"<-P><e.presets><-C><{cpu}>", line)
            self.assertFalse((shell.folder / "FILE").exists())

    def test_control_characters_are_left_out(self) -> None:
        for _, shell in self.shells():
            (shell.folder / "e.presets").write_text(
                "CPU,ab\x1b]0;x\x07\nCPU,ab\tc\nCPU,abc\n", encoding="utf-8"
            )
            self.assertEqual(
                shell.after("papi_avail -P e.presets -C a"), "papi_avail -P e.presets -C abc "
            )

    def test_names_of_files(self) -> None:
        odd = "it's $(touch FILE) `touch FILE`;.unit"
        for name, shell in self.shells():
            (shell.folder / odd).touch()
            self.assertEqual(
                shell.run(shell.after("papi_encode --show -U it"), "shown"), f"<-U><{odd}>"
            )
            self.assertFalse((shell.folder / "FILE").exists())


class Files(Interactive):
    """Names of units with blanks, in quotes, in the home, and attached to the option."""

    def test_events_of_a_unit_however_it_is_named(self) -> None:
        for _, shell in self.shells():
            (shell.folder / "my unit.unit").touch()
            for unit in (
                "-U my\\ unit.unit", "-U 'my unit.unit'", '-U "my unit.unit"',
                "-U ~/my\\ unit.unit", "-U=my\\ unit.unit", "-Umy\\ unit.unit",
            ):
                line = f"papi_encode {unit} lab::C"
                self.assertEqual(shell.after(line), f"papi_encode {unit} lab::CYCLES ")
            asked = (shell.folder / "asked").read_text().splitlines()
            self.assertEqual(set(asked), {"my unit.unit", f"{shell.folder}/my unit.unit"})

    def test_names_of_files(self) -> None:
        for name, shell in self.shells():
            (shell.folder / "my unit.unit").touch()
            (shell.folder / "deep folder").mkdir()
            (shell.folder / "deep folder/x.unit").touch()
            for begun, ended in (
                ("-U my", "-U my\\ unit.unit "), ("-U ~/my", "-U ~/my\\ unit.unit "),
                ("-U=my", "-U=my\\ unit.unit "), ("-U deep", "-U deep\\ folder/"),
                ("-U=deep", "-U=deep\\ folder/"), ("-U deep\\ folder/", "-U deep\\ folder/x.unit "),
                ("-Umy", "-Umy\\ unit.unit "), ("-U my\\ u", "-U my\\ unit.unit "),
            ):
                self.assertEqual(shell.after(f"papi_run {begun}"), f"papi_run {ended}")

    def test_a_name_in_quotes(self) -> None:
        for _, shell in self.shells(("bash",)):
            (shell.folder / "my unit.unit").touch()
            for quote in ("'", '"'):
                self.assertEqual(
                    shell.after(f"papi_run -U {quote}my"),
                    f"papi_run -U {quote}my unit.unit{quote} ",
                )
                self.assertEqual(
                    shell.after(f"papi_run -U {quote}my un"),
                    f"papi_run -U {quote}my unit.unit{quote} ",
                )

    def test_presets_of_files_and_a_processor_with_blanks(self) -> None:
        for _, shell in self.shells():
            for name in ("a b.unit", "e f.presets"):
                (shell.folder / name).touch()
            begun = "-U a\\ b.unit -P e\\ f.presets -C 'c d'"
            self.assertEqual(
                shell.after(f"papi_avail {begun} -e PAPI_TOT_I"),
                f"papi_avail {begun} -e PAPI_TOT_INS ",
            )
            self.assertEqual(
                shell.after(f"papi_event_chooser {begun} PRESET PAPI_TOT_C"),
                f"papi_event_chooser {begun} PRESET PAPI_TOT_CYC ",
            )
            self.assertEqual(
                shell.after(f"papi_regions {begun} --events PAPI_TOT_I"),
                f"papi_regions {begun} --events PAPI_TOT_INS ",
            )

    def test_the_words_of_the_chooser(self) -> None:
        for _, shell in self.shells():
            (shell.folder / "lab.unit").touch()
            for begun, ended in (
                ("N", "NATIVE "), ("P", "PRESET "), ("NATIVE lab::C", "NATIVE lab::CYCLES "),
                ("NATIVE x lab::C", "NATIVE x lab::CYCLES "), ("-- N", "-- NATIVE "),
            ):
                self.assertEqual(
                    shell.after(f"papi_event_chooser -U lab.unit {begun}"),
                    f"papi_event_chooser -U lab.unit {ended}",
                )

    def test_options_and_what_is_none(self) -> None:
        for _, shell in self.shells():
            for begun, ended in (
                ("papi_avail -", None), ("papi_run --wo", "papi_run --workers "),
                ("papi_run -- --wo", "papi_run -- --wo"),
                ("papi_run --workers ", "papi_run --workers "),
                ("papi_run --workers=", "papi_run --workers="), ("papi_soak 1", "papi_soak 1"),
            ):
                self.assertIn(shell.after(begun), (ended, begun) if ended is None else (ended,))

    def test_names_with_signs_of_patterns_and_of_words(self) -> None:
        for _, shell in self.shells(("bash",)):
            for name in ("[a]:b.unit", "c=d.unit", ".hidden.unit", "x*y.unit", "xzy.unit"):
                (shell.folder / name).touch()
            (shell.folder / "e:f").mkdir()
            for begun, ended in (
                ("-U \\[a\\]:b", "-U \\[a\\]:b.unit "), ("-U=\\[a\\]:b", "-U=\\[a\\]:b.unit "),
                ("-U c=d", "-U c=d.unit "), ("-U .h", "-U .hidden.unit "),
                ("-U x\\*", "-U x\\*y.unit "), ("-U 'x*", "-U 'x*y.unit' "), ("-U e:", "-U e:f/"),
                ("-Ue:", "-Ue:f/"),
            ):
                self.assertEqual(shell.after(f"papi_run {begun}"), f"papi_run {ended}")
            shell.type("set -f; shopt -s failglob nocaseglob; GLOBIGNORE='*'\n")
            self.assertEqual(shell.after("papi_run -U c=d"), "papi_run -U c=d.unit ")
            self.assertEqual(shell.after("papi_run -U C="), "papi_run -U C=")

    def test_a_second_event_of_a_list(self) -> None:
        for _, shell in self.shells():
            (shell.folder / "lab.unit").touch()
            for begun in (
                "--events lab::CYCLES,lab::MEM:", "--events=lab::CYCLES,lab::MEM:",
                "--events lab::MEM:",
            ):
                self.assertEqual(
                    shell.after(f"papi_regions -U lab.unit {begun}"),
                    f"papi_regions -U lab.unit {begun}LOADS ",
                )


NATIVES = "lab::CYCLES\nlab::MEM\nlab::MEM:LOADS\n"
DERIVED = "PAPI_TOT_INS\nPAPI_TOT_CYC\n"
OF_CPU = ("-U", "lab.unit", "-P", "e.presets", "-C", "c d")


def after(front: str, words: str) -> str:
    return "".join(f"{front}{word}\n" for word in words.split())


# What completions/candidates prints for a tool's words, or the text before the name of a file.
ANSWERS: list[tuple[tuple[str, ...], int, str]] = [
    (("papi_encode", "-U", "lab.unit", ""), 0, NATIVES),
    (("papi_encode", "-U=lab.unit", "x", "lab"), 0, NATIVES),
    (("papi_encode", "-Ulab.unit", ""), 0, NATIVES),
    (("papi_encode", "-U", "lab.unit", "--", "-"), 0, NATIVES),
    (("papi_encode", "--", "-U", "lab.unit", ""), 0, ""),
    (("papi_encode", "-U", "none", ""), 0, ""), (("papi_encode", ""), 0, ""),
    (("papi_encode", "-U", "a b.unit", ""), 0, NATIVES),
    (("papi_encode", "-U", "*.unit", ""), 0, ""),
    (("papi_encode", "-U", ""), 3, ""), (("papi_encode", "-U", "x"), 3, ""),
    (("papi_encode", "-U="), 3, "-U="), (("papi_encode", "-Ux"), 3, "-U"),
    (("papi_profil", "-M=x"), 3, "-M="),
    (("papi_run", ""), 3, ""), (("papi_run", "-U", "lab.unit", "some"), 3, ""),
    (("papi_run", "--", "-U"), 3, ""), (("papi_run", "--workers", ""), 0, ""),
    (("papi_run", "--workers=", ), 0, ""),
    (("papi_run", "--notes", ""), 3, ""), (("papi_profil", ""), 3, ""),
    (("papi_regions", ""), 3, ""), (("papi_soak", ""), 0, ""),
    (("papi_soak", "-"), 0, "--workers\n"),
    (("papi_encode", "-"), 0, "-U\n"),
    (("papi_native_avail", "-"), 0, "-U\n-i\n-x\n--noumasks\n-e\n"),
    (("papi_native_avail", "-U", "lab.unit", "-e", ""), 0, NATIVES),
    (("papi_native_avail", "-U", "lab.unit", "-i", ""), 0, ""),
    (("papi_native_avail", "-e", "-U", "lab.unit", ""), 0, ""),
    (("papi_avail", *OF_CPU, "-e", ""), 0, DERIVED),
    (("papi_avail", *OF_CPU, "-a", "-e="), 0, after("-e=", DERIVED)),
    (("papi_avail", *OF_CPU, "-ePAPI"), 0, after("-e", DERIVED)),
    (("papi_avail", *OF_CPU[:4], "-e", ""), 0, ""),
    (("papi_avail", "-U", "lab.unit", "-C", "c d", "-e", ""), 0, ""),
    (("papi_avail", *OF_CPU[2:], "-e", ""), 0, ""),
    (("papi_avail", "-P", "e.presets", "-C", ""), 0, "c d\nlab2\n"),
    (("papi_avail", "-P", "e.presets", "-C="), 0, "-C=c d\n-C=lab2\n"),
    (("papi_avail", "-C", ""), 0, ""), (("papi_avail", "-P", "none", "-C", ""), 0, ""),
    (("papi_event_chooser", "-U", "lab.unit", ""), 0, "NATIVE\nPRESET\n"),
    (("papi_event_chooser", "-U", "lab.unit", "NATIVE", ""), 0, NATIVES),
    (("papi_event_chooser", *OF_CPU, "PRESET", ""), 0, DERIVED),
    (("papi_event_chooser", "-U", "lab.unit", "NATIVE", "a", ""), 0, NATIVES),
    (("papi_event_chooser", "--", "NATIVE", ""), 0, ""),
    (("papi_regions", "-U", "lab.unit", "--events", ""), 0, NATIVES),
    (("papi_regions", *OF_CPU, "--events", ""), 0, NATIVES + DERIVED),
    (("papi_regions", "-U", "lab.unit", "--events", "a b,c *,x"), 0, after("a b,c *,", NATIVES)),
    (("papi_regions", "-U", "lab.unit", "--events=a,"), 0, after("--events=a,", NATIVES)),
    (("papi_regions", "-U", "lab.unit", "--events", "a,", ""), 3, ""), (("papi_decode", ""), 0, ""),
]


class Candidates(Interactive):
    def test_each_answer(self) -> None:
        place = make_tools(self.folder)
        for name in ("lab.unit", "a b.unit"):
            (self.folder / name).touch()
        (self.folder / "e.presets").write_text(
            "# CPU,no\nCPU,c d\n  CPU , lab2 \t,x\r\nPRESET,CPU,x\nCPU\nCPU,\nCPUS,z\n",
            encoding="ascii",
        )
        environment = self.environment(place)
        for words, status, wanted in ANSWERS:
            wanted = (
                wanted if "a b,c *," not in wanted
                else "".join(f"a b,c *,{event}\n" for event in NATIVES.split())
            )
            done = subprocess.run(
                [str(ROOT / "completions/candidates"), *words], cwd=self.folder, env=environment,
                capture_output=True, text=True, timeout=60,
            )
            self.assertEqual(
                (done.returncode, done.stdout, done.stderr), (status, wanted, ""), words
            )

    def test_tools_that_are_named_with_their_folder(self) -> None:
        place = make_tools(self.folder)
        for name in ("lab.unit",):
            (self.folder / name).touch()
        for tool in (f"{place}/papi_encode", "tools/papi_encode", "~/tools/papi_encode"):
            done = subprocess.run(
                [str(ROOT / "completions/candidates"), tool, "-U", "~/lab.unit", ""],
                cwd=self.folder, env={**os.environ, "HOME": str(self.folder)}, capture_output=True,
                text=True,
            )
            self.assertEqual((done.returncode, done.stdout), (0, NATIVES), tool)


class Waiting(Interactive):
    """A shell gets an answer at once, whatever is named."""

    def candidates(self, place: Path, *words: str) -> tuple[int, str, float]:
        begun = time.monotonic()
        done = subprocess.run(
            [str(ROOT / "completions/candidates"), *words], cwd=self.folder,
            env=self.environment(place), capture_output=True, text=True, timeout=60,
        )
        return done.returncode, done.stdout, time.monotonic() - begun

    def test_a_fifo_does_not_hang(self) -> None:
        place = make_tools(self.folder)
        os.mkfifo(self.folder / "fifo")
        for words in (
            ("papi_encode", "-U", "fifo", ""), ("papi_avail", "-P", "fifo", "-C", ""),
            ("papi_avail", "-U", "fifo", "-P", "fifo", "-C", "x", "-e", ""),
        ):
            status, said, _ = self.candidates(place, *words)
            self.assertEqual((status, said), (0, ""), words)
        self.assertFalse((self.folder / "asked").exists())

    def test_a_checkout_without_a_program_is_not_asked(self) -> None:
        """bin/papi would prepare an unproved one."""
        checkout = self.folder / "checkout"
        (checkout / "crates/papi").mkdir(parents=True)
        make_tools(self.folder).rename(checkout / "bin")
        (self.folder / "lab.unit").touch()
        self.assertEqual(
            self.candidates(checkout / "bin", "papi_encode", "-U", "lab.unit", "")[:2], (0, "")
        )
        self.assertFalse((self.folder / "asked").exists())
        (checkout / "bin/unproved.sh").touch()  # which knows that nothing is to be compiled
        tool = checkout / "bin/papi_native_avail"
        tool.write_text(tool.read_text() + "echo \"$KISTALUB_COMPILE$KISTALUB_HINTS::X  x\"\n")
        self.assertIn(
            "00::X\n", self.candidates(checkout / "bin", "papi_encode", "-U", "lab.unit", "")[1]
        )
        (checkout / "bin/unproved.sh").unlink()
        (self.folder / "asked").unlink()
        program = checkout / "crates/papi/out/papi"
        program.parent.mkdir()
        program.touch(0o755)
        self.assertEqual(
            self.candidates(checkout / "bin", "papi_encode", "-U", "lab.unit", "")[1],
            "lab::CYCLES\nlab::MEM\nlab::MEM:LOADS\n00::X\n",
        )

    @needs_command("timeout", "coreutils")
    def test_a_tool_that_takes_long_is_ended(self) -> None:
        place = make_tools(self.folder)
        (place / "papi_native_avail").write_text("#!/bin/sh\nexec sleep 50\n")
        (self.folder / "lab.unit").touch()
        status, said, seconds = self.candidates(place, "papi_encode", "-U", "lab.unit", "")
        self.assertEqual((status, said), (0, ""))
        self.assertLess(seconds, 20)

    def test_odd_words(self) -> None:
        """Nothing is said on standard error, whatever the words are."""
        place = make_tools(self.folder)
        for words in (
            (), ("papi_avail",), ("no_tool", "-"), ("papi_run", "--", "-U", ""), ("papi_run", "-U"),
            ("papi_avail", "-U", "~", ""), ("papi_avail", "-C", "-C", "x"), ("", ""),
        ):
            done = subprocess.run(
                [str(ROOT / "completions/candidates"), *words], cwd=self.folder,
                env=self.environment(place), capture_output=True, text=True, timeout=60,
            )
            self.assertEqual((done.stderr, done.returncode in (0, 3)), ("", True), words)


@needs_command("bash", "bash")
@needs_program
class Lab(Interactive):
    def test_words(self) -> None:
        for _, shell in self.shells(("bash",), ROOT / "bin"):
            (shell.folder / "examples").symlink_to(ROOT / "examples")
            for line, wanted in LAB:
                before = line if line.endswith(" ") else line[: line.rindex(" ") + 1]
                self.assertEqual(
                    shell.after(line, EVERY), before + "".join(f"{word} " for word in wanted), line
                )


@needs_program
@needs_library
@needs_command("cc", "a C compiler")
class Installed(InFolder):
    """The tools installed with a suffix: the shells find the completion by the name of a tool, and
    it asks the tools of these names."""

    prefix: str
    UMASK = f"papi_encode-x -U {ROOT}/examples/lab.unit lab::MEM:L"

    @classmethod
    def setUpClass(cls) -> None:
        cls.prefix = str(installed())

    def check(self, name: str, file: str) -> None:
        environment = {
            **os.environ,
            "PATH": f"{self.prefix}/bin:{os.environ['PATH']}",
            "HOME": str(self.folder),
        }
        shell = Shell(name, self.folder, environment, Path(self.prefix, file))
        try:
            self.assertEqual(shell.after(self.UMASK), f"{self.UMASK}OADS ")
            self.assertEqual(shell.after("papi_run-x --w"), "papi_run-x --workers ")
        finally:
            shell.end()

    @needs_command("bash", "bash")
    def test_bash(self) -> None:
        self.check("bash", "share/bash-completion/completions/papi_encode-x")

    @needs_command("fish", "fish")
    def test_fish(self) -> None:
        self.check("fish", "share/fish/vendor_completions.d/papi_encode-x.fish")

    @needs_command("zsh", "zsh")
    def test_zsh(self) -> None:
        self.check("zsh", "share/zsh/site-functions/_kistalub-x")

    def test_zsh_is_told_the_names(self) -> None:
        with open(f"{self.prefix}/share/zsh/site-functions/_kistalub-x", encoding="ascii") as file:
            names = file.readline().split()
        self.assertEqual(
            names,
            [
                "#compdef",
                *sorted(
                    f"{name}-x"
                    for name in (*NAMES, "papi_compare", "papi_count", "papi_plan", "papi_record")
                ),
            ],
        )
