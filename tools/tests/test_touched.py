"""checks/touched: which crates a change touches, how long proving them takes, and what is run."""

from __future__ import annotations

import os
import subprocess
import unittest
from pathlib import Path

from proof_costs import PROOF, TESTS
from tests.support import ROOT, copied, needs_command, some
from touched_crates import FUNCTION, Time, above, time_of, without_bodies

PROGRAMS = (
    "checks/touched",
    "checks/touched_crates.py",
    "checks/gate_watch.py",
    "checks/proof_costs.py",
    "checks/here.py",
    "tools/parts/__init__.py",
    "tools/parts/command.py",
    "bin/hints/formats/__init__.py",
    "bin/hints/formats/files.py",
    "bin/hints/formats/texts.py",
    "tools/parts/crate_graph.py",
)
CRATES = "low:\nmiddle: low\ntop: middle csv\ntop_tests: top\nother: csv\n"
CITED = {"low": [], "middle": ["low"], "top": ["middle"], "top_tests": ["top"], "other": []}
CODE = """//! A crate.
#![tactic(auto)]

/// Doubles.
pub fn double(n: u32) -> u32
    requires { n < 10 }
    ensures { result ≡ n + n }
{
    let twice = n + n;
    twice
}

pub struct Pair {
    pub first: u32,
}

impl Pair {
    pub fn new(
        first: u32,
    ) -> Pair {
        Pair { first }
    }
}

pub extern "C" fn last() -> u32 {
    7
}
"""


class Bodies(unittest.TestCase):
    def test_what_is_a_body(self) -> None:
        for old, new, same in (
            ("    let twice = n + n;", "    let twice = 2 * n;", True),
            ("/// Doubles.", "/// Doubles it.", True),
            ("        Pair { first }", "        Pair { first: first }", True),
            ("    7\n", "    8\n", True),
            ("n < 10", "n < 11", False),
            ("result ≡ n + n", "result ≡ n", False),
            ("    pub first: u32,", "    pub first: u64,", False),
            ("last() -> u32", "last() -> u64", False),
            ("        first: u32,", "        first: u64,", False),
        ):
            self.assertIn(old, CODE)
            self.assertEqual(
                without_bodies(CODE) == without_bodies(CODE.replace(old, new)), same, new
            )

    def test_no_function_and_no_line_outside_is_lost(self) -> None:
        """In all crates: a body that ended late would take with it what stands behind."""
        for path in some(ROOT.glob("crates/*/src/**/*.rt")):
            lines = path.read_text(encoding="utf-8").splitlines()
            outside = [
                line
                for line in lines
                if FUNCTION.match(line)
                or line.startswith(
                    (
                        "pub struct",
                        "pub enum",
                        "pub trait",
                        "impl",
                        "const",
                        "pub const",
                        "use",
                        "pub use",
                        "mod",
                        "ghost",
                        "#[",
                    )
                )
            ]
            kept = set(without_bodies("\n".join(lines)))
            self.assertEqual([line for line in outside if line not in kept], [], path.name)


class Times(unittest.TestCase):
    def test_above(self) -> None:
        self.assertEqual(above({"middle"}, CITED), {"top", "top_tests"})
        self.assertEqual(
            (above({"other"}, CITED), above({"low", "top"}, CITED)),
            (set(), {"middle", "top_tests"}),
        )

    def test_the_chain_or_the_work_decides(self) -> None:
        costs = {
            ("low", PROOF): 10.0,
            ("middle", PROOF): 20.0,
            ("other", PROOF): 100.0,
            ("top", PROOF): 5.0,
            ("top", TESTS): 7.0,
        }
        self.assertEqual(
            time_of({"low", "middle", "top", "other"}, CITED, costs, 4), Time(142.0, 100.0, ())
        )
        self.assertEqual(time_of({"low", "middle", "top", "other"}, CITED, costs, 1).wall, 142.0)
        self.assertEqual(
            time_of({"low", "middle", "top", "top_tests"}, CITED, costs, 4),
            Time(42.0, 42.0, ("top_tests",)),
        )
        self.assertEqual(time_of(set(), CITED, costs, 4), Time(0.0, 0.0, ()))


@needs_command("git", "git")
class Programs(unittest.TestCase):
    def setUp(self) -> None:
        context = copied(*PROGRAMS)
        self.root = context.__enter__()
        self.addCleanup(context.__exit__, None, None, None)
        self.write("crates.txt", CRATES)
        self.write(
            "checks/costs.csv",
            "crate,proof,tests,edits\nlow,100,,50\nmiddle,200,,\ntop,300,,\ntop_tests,1,400,\n",
        )
        for crate in CITED:
            self.write(
                f"crates/{crate}/src/lib.rt", CODE + ("#[test]\n" if crate == "top_tests" else "")
            )
        self.write(
            "bin/rt", '#!/bin/sh\necho "rt $* in ${PWD##*/}"\n[ "$*" != "check --test" ]\n'
        ).chmod(0o755)
        self.git("init", "-q")
        self.git("add", ".")
        self.git("-c", "user.name=a", "-c", "user.email=a", "commit", "-qm", "a")

    def write(self, name: str, text: str) -> Path:
        path = self.root / name
        path.parent.mkdir(parents=True, exist_ok=True)
        path.write_text(text, encoding="utf-8")
        return path

    def git(self, *words: str) -> None:
        subprocess.run(["git", *words], cwd=self.root, check=True)

    def told(self, *words: str) -> subprocess.CompletedProcess[str]:
        environment = {
            **os.environ,
            "XDG_CACHE_HOME": str(self.root / "cache"),
            "PATH": f"{self.root}/bin:{os.environ['PATH']}",
        }
        return subprocess.run(
            [str(self.root / "checks/touched"), *words],
            capture_output=True,
            text=True,
            env=environment,
        )

    def changed(self, crate: str, old: str, new: str) -> None:
        self.write(f"crates/{crate}/src/lib.rt", CODE.replace(old, new))

    def test_a_body_touches_its_crate(self) -> None:
        self.changed("middle", "twice = n + n", "twice = 2 * n")
        lines = self.told("--prove").stdout.splitlines()
        self.assertEqual(
            lines[:2],
            [
                "what others see changed: none; the crates above: none",
                "bodies and proofs alone changed: middle",
            ],
        )
        self.assertRegex(
            lines[2], r"\Aproving these: 3 min of a processor, 3 min on \d+ processors?\Z"
        )
        self.assertRegex(
            lines[3],
            r"\Athe gate proves those above too: 15 min of a processor, 15 min on \d+ proc",
        )
        self.assertEqual(lines[4:], ["crates/middle: rt check", "rt check in middle"])

    def test_a_clause_touches_those_above(self) -> None:
        self.changed("middle", "n < 10", "n < 11")
        self.changed("other", "twice = n + n", "twice = 2 * n")
        done = self.told("--prove")
        lines = done.stdout.splitlines()
        self.assertEqual(
            lines[:2],
            [
                "what others see changed: middle; the crates above: top, top_tests",
                "bodies and proofs alone changed: other",
            ],
        )
        self.assertIn("; not known: other", lines[2])
        self.assertEqual(
            lines[-2:],
            ["rt ci middle top top_tests", f"rt ci middle top top_tests in {self.root.name}"],
        )

    def test_what_each_file_touches(self) -> None:
        for name, wanted in (
            ("crates/low/specs/A.antt", "low; the crates above: middle, top, top_tests"),
            ("crates/low/proofs/A.antt", "low; the crates above: middle, top, top_tests"),
            ("crates/low/proofs/f/Answers.antt", "bodies and proofs alone changed: low"),
            ("crates/low/must-fail/a.edit", "edits changed: low (checks/edits)"),
            ("crates/low/edits/a.edit", "edits changed: low (checks/edits)"),
            ("crates/none/src/lib.rt", "nothing has to be proved"),
            ("c/a.c", "nothing has to be proved"),
            ("HANDLES", "low, middle, other, top, top_tests; "),
            ("crates.txt", "other; the crates above: none"),
        ):
            path = self.write(
                name,
                CRATES.replace("other: csv", "other: csv low") if name == "crates.txt" else "x\n",
            )
            self.assertIn(wanted, self.told().stdout, name)
            path.write_text(CRATES) if name == "crates.txt" else path.unlink()

    def test_the_first_failure_is_the_status(self) -> None:
        self.write(
            "crates/top_tests/src/lib.rt",
            CODE.replace("twice = n + n", "twice = 2 * n") + "#[test]\n",
        )
        done = self.told("--prove")
        self.assertEqual(
            (done.returncode, done.stdout.splitlines()[-1]), (1, "rt check --test in top_tests")
        )
        done = self.told("--since", "no-such")
        self.assertEqual((done.returncode, done.stdout), (1, ""))
        self.assertRegex(done.stderr, r"\Atouched: fatal: .*no-such.*\n\Z")


if __name__ == "__main__":
    unittest.main()
