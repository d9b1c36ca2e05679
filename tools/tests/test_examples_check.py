"""examples/check: a wrong output, standard error or status of a program is seen."""

from __future__ import annotations

import os
import shutil
import subprocess

from tests.support import ROOT, InFolder


class Check(InFolder):
    """Over two examples of its own, of which one says no."""

    def setUp(self) -> None:
        super().setUp()
        (self.folder / "tmp").mkdir()
        examples = self.folder / "examples"
        examples.mkdir()
        for name in ("check", "folder.sh"):
            shutil.copy(ROOT / "examples" / name, examples / name)
        files = {
            "good.words": "say\nout\n",
            "good.expected": "out\n",
            "bad.words": "fail\nwith two words\n",
            "bad.expected": "",
            "bad.errors": "with two words\n",
            "bad.status": "3\n",
        }
        for name, text in files.items():
            self.write(f"examples/{name}", text)

    def check(self, say: str = 'echo "$2"', fail: str = 'echo "$2" >&2; exit 3') -> tuple[int, str]:
        program = self.write(
            "program", f"#!/bin/sh\ncase $1 in\nsay) {say} ;;\n*) {fail} ;;\nesac\n"
        )
        os.chmod(program, 0o755)
        done = subprocess.run(
            [str(self.folder / "examples/check"), program],
            env={**os.environ, "TMPDIR": str(self.folder / "tmp")},
            capture_output=True,
            text=True,
        )
        self.assertEqual((done.stderr, os.listdir(self.folder / "tmp")), ("", []))
        return done.returncode, done.stdout.splitlines()[-1]

    def test_all_as_wanted(self) -> None:
        self.assertEqual(self.check(), (0, "2 passed, 0 failed"))

    def test_each_wrong_answer_is_seen(self) -> None:
        for say, fail in (
            ("echo other", 'echo "$2" >&2; exit 3'),
            ('echo "$2"; echo more', 'echo "$2" >&2; exit 3'),
            ('echo "$2"; echo loud >&2', 'echo "$2" >&2; exit 3'),
            ('echo "$2"; exit 1', 'echo "$2" >&2; exit 3'),
            ('echo "$2"', "echo other >&2; exit 3"),
            ('echo "$2"', "exit 3"),
            ('echo "$2"', 'echo "$2" >&2; exit 0'),
            ('echo "$2"', 'echo "$2" >&2; exit 4'),
            ('echo "$2"', 'echo "$2"; echo "$2" >&2; exit 3'),
        ):
            self.assertEqual(self.check(say, fail), (1, "1 passed, 1 failed"), (say, fail))

    def test_without_a_program(self) -> None:
        words = [str(self.folder / "examples/check"), str(self.folder / "none")]
        done = subprocess.run(words, capture_output=True, text=True)
        last = done.stdout.splitlines()[-1]
        self.assertEqual((done.returncode, last), (1, "0 passed, 2 failed"))
