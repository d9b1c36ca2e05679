"""examples/ci: a gate in each language fails where a change costs over 2 % more, and in no other
case."""

from __future__ import annotations

import os
import re
import subprocess

from tests.support import ROOT, TOOLS, InFolder, built_library, needs_command, needs_library
from tests.whole import needs_papi

GATE = ROOT / "examples/ci/gate"
WORKFLOW = ROOT / "examples/ci/counts.yml"
STEP = re.compile(r"^      - name: (\w+)\n        run: \|\n((?:          .*\n)+)", re.MULTILINE)
ROUNDS = (
    "int main(void) {{ volatile int sum = 0; for (int i = 0; i < {}; i++) sum += i; return 0; }}\n"
)
EVENTS = ["PAPI_TOT_INS", "PAPI_LD_INS", "PAPI_L1_DCM"]


@needs_command("valgrind", "valgrind")
@needs_command("objdump", "binutils")
@needs_command("cc", "a C compiler")
@needs_library
class Gates(InFolder):
    def gate(self, language: str, rounds: int) -> subprocess.CompletedProcess[str]:
        words = [str(GATE), language, str(rounds), str(built_library())]
        return subprocess.run(words, capture_output=True, text=True)

    def check(self, language: str) -> None:
        """Of 100 rounds 102 cost at most 2 % more, and 103 over 2 %: what comes before the rounds
        and after them is the same. The same program twice counts the same to the digit."""
        for rounds, status in ((100, 0), (102, 0), (103, 1)):
            done = self.gate(language, rounds)
            self.assertEqual(done.returncode, status, done.stdout + done.stderr)
            rows = [line.split() for line in done.stdout.splitlines()[1 : 1 + len(EVENTS)]]
            self.assertEqual((rows[0].pop(0), [row[0] for row in rows]), ("smooth", EVENTS))
            if rounds == 100:
                self.assertEqual([row[3] for row in rows], ["0"] * len(EVENTS), done.stdout)
            instructions = [int(word.replace(",", "")) for word in rows[0][1:3]]
            self.assertAlmostEqual(instructions[1] / instructions[0], rounds / 100, 3)
            self.assertEqual("over 2%" in done.stdout, status == 1)

    def test_c(self) -> None:
        self.check("c")

    @needs_command("c++", "a C++ compiler")
    def test_cpp(self) -> None:
        self.check("c++")

    @needs_command("rustc", "rustc")
    def test_rust(self) -> None:
        self.check("rust")

    @needs_command("gfortran", "gfortran")
    def test_fortran(self) -> None:
        self.check("fortran")

    def test_python(self) -> None:
        self.check("python")

    def test_another_language(self) -> None:
        done = self.gate("cobol", 100)
        usage = "usage: gate c|c++|rust|fortran|python [ROUNDS [LIBRARY]]\n"
        self.assertEqual((done.returncode, done.stdout, done.stderr), (2, "", usage))


@needs_command("valgrind", "valgrind")
@needs_command("cc", "a C compiler")
@needs_papi
class Workflow(InFolder):
    """The commands of the workflow, over programs that make no call of PAPI."""

    def build(self, side: str, rounds: int) -> None:
        (self.folder / side).mkdir(exist_ok=True)
        source = self.write(f"{side}/program.c", ROUNDS.format(rounds))
        subprocess.run(["cc", "-O1", "-o", f"{self.folder}/{side}/program", source], check=True)

    def test_the_steps_judge_a_change(self) -> None:
        steps = {
            name: "".join(line[10:] + "\n" for line in lines.splitlines())
            for name, lines in STEP.findall(WORKFLOW.read_text())
        }
        self.assertEqual(list(steps), ["Install", "Build", "Count", "Compare"])
        for tool in ("count", "compare"):
            (self.folder / f"papi_{tool}-model").symlink_to(TOOLS / tool)
        summary = self.folder / "summary"
        environment = {
            **os.environ,
            "PATH": f"{self.folder}:{os.environ['PATH']}",
            "PROGRAM": "./program",
            "LIMIT": "2%",
            "GITHUB_STEP_SUMMARY": str(summary),
        }
        self.build("base", 100_000)
        for rounds, status in ((101_000, 0), (103_000, 1)):
            self.build("new", rounds)
            for step, wanted in (("Count", 0), ("Compare", status)):
                done = subprocess.run(
                    ["sh", "-e", "-c", steps[step]],
                    cwd=self.folder,
                    env=environment,
                    capture_output=True,
                    text=True,
                )
                self.assertEqual(done.returncode, wanted, done.stderr)
        told = summary.read_text()
        self.assertEqual((told.count("| event | base |"), told.count("**over 2%**") > 0), (2, True))
