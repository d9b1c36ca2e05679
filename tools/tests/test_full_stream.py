"""tools/record at the limit of a stream: its line says how the run is counted, and these words
do."""

from __future__ import annotations

import os
import re
import shlex
import subprocess
from pathlib import Path

from tests.support import ROOT, TOOLS, needs_command
from tests.whole import EXIT, Whole, needs_papi

SAID = re.compile(
    r"(?:papi_)?record(?:-x)?: the stream is full \(67,108,864 bytes\) at (0x[0-9a-f]+)[^:]*: "
    r"(.*)\n"
)
ADVICE = (
    "the run was stopped there; --from, --only-calls and a larger --window make it smaller; "
    "a count has no stream and no limit: "
)
TURNS = 3_000_000


@needs_command("valgrind", "valgrind")
@needs_command("nm", "binutils")
@needs_command("cc", "a C compiler")
class Full(Whole):
    # Its status is 0 if it has its two words, and its own if it has not. Only then does it loop.
    TEXT = (
        f"cmpq $3, (%rsp)\n jne 2f\n mov ${TURNS}, %ecx\n 1: dec %ecx\n jnz 1b\n"
        + EXIT.format(0)
        + "2: "
        + EXIT.format(9)
    )

    def said(self, tool: str, **changes: str) -> str:
        """The words that count the run."""
        program = self.assemble("some program", self.TEXT)
        stream = str(self.folder / "stream")
        words = [tool, "-o", stream, "--each", program, "two words", "it's; exit 1"]
        done = subprocess.run(
            words, capture_output=True, text=True, cwd=self.folder, env={**os.environ, **changes}
        )
        self.assertEqual((done.returncode, done.stdout), (3, ""), done.stderr)
        found = SAID.fullmatch(done.stderr)
        assert found is not None, done.stderr
        self.assertTrue(found[2].startswith(ADVICE), found[2])
        self.assertEqual(Path(stream).stat().st_size // 100, 67_108_864 // 100)
        return found[2][len(ADVICE) :]

    @needs_papi
    def test_the_words_count_it(self) -> None:
        words = self.said(str(TOOLS / "record"))
        done = subprocess.run(words, shell=True, capture_output=True, text=True, cwd=self.folder)
        self.assertEqual((done.returncode, done.stdout), (0, ""), done.stderr)
        count = 2 + 1 + 2 * TURNS + 3
        self.assertRegex(done.stderr, rf"\n +{count:,}      PAPI_TOT_INS\n")

    def test_a_tool_in_path(self) -> None:
        """Its name is enough, also one with a suffix."""
        for tool in ("record", "count"):
            (self.folder / f"papi_{tool}-x").symlink_to(ROOT / "tools" / tool)
        path = f"{self.folder}:{os.environ['PATH']}"
        words = shlex.split(self.said("papi_record-x", PATH=path))
        self.assertEqual(words[0], "papi_count-x")
        self.assertEqual(words[2:], ["two words", "it's; exit 1"])
