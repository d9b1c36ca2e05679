"""examples/count and examples/ranks: what their scripts print."""

from __future__ import annotations

import subprocess

from tests.support import ROOT, InFolder, needs_command, needs_library, needs_program

COUNT, RANKS = ROOT / "examples/count", ROOT / "examples/ranks"


@needs_command("valgrind", "valgrind")
@needs_command("objdump", "binutils")
@needs_command("cc", "a C compiler")
@needs_library
class Examples(InFolder):
    def test_products_and_their_limit(self) -> None:
        """64 x 64 products have a multiplication and an addition each, and 64^3 of them twice as
        many; in blocks they miss less."""
        folder = str(self.folder / "products")
        table = subprocess.run([str(COUNT / "run"), folder], capture_output=True, text=True)
        self.assertEqual((table.returncode, table.stderr), (0, ""))
        rows = {words[0]: words[1:] for words in map(str.split, table.stdout.splitlines()[1:])}
        self.assertEqual(
            [rows[name][3] for name in ("dot", "plain", "blocked")],
            [str(2 * 64**2), str(2 * 64**3), str(2 * 64**3)],
        )
        self.assertGreater(int(rows["plain"][2]), 4 * int(rows["blocked"][2]))
        self.assertEqual(subprocess.run([str(COUNT / "limit"), folder]).returncode, 0)

    @needs_program
    @needs_command("parallel", "parallel")
    def test_many_ranks(self) -> None:
        """Rank R adds 1,000 (R + 1) terms, each with a division and an addition."""
        done = subprocess.run([str(RANKS / "many"), "3", "2"], capture_output=True, text=True)
        rows = [line.split() for line in done.stdout.splitlines()]
        self.assertEqual(
            [(row[0], row[2]) for row in rows], [("0", "2000"), ("1", "4000"), ("2", "6000")]
        )
