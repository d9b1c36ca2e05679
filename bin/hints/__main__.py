"""Hints on what a tool answered: hints NAME STATUS TOOL WORD.., with what the program wrote on
standard error as standard input.

Prints lines `hint: ..` for a person who wonders what to do. It reads the files that the words name,
as far as they are regular files, and never runs the program. The program is proved and these hints
are not: if they are wrong its own lines hold. The status is 10 if a native event counts 0, since no
line of the streams counts for it.
"""

from __future__ import annotations

import os
import sys

from formats.texts import plain
from hinting import hints_on
from silent import SILENT


SILENT_STATUS = 10


def tell(lines: list[str]) -> None:
    """Prints the hints. If nobody takes them they are lost, and nothing else changes."""
    try:
        for line in lines:
            sys.stdout.buffer.write(f"hint: {plain(line)}\n".encode())
        sys.stdout.buffer.flush()
    except OSError:
        # for what Python would try once more at its end
        os.dup2(os.open(os.devnull, os.O_WRONLY), 1)


def main() -> None:
    name, status, tool, *words = sys.argv[1:]
    said = sys.stdin.buffer.read().decode("utf-8", "surrogateescape").splitlines()
    lines = hints_on(name, int(status), tool, words, said)
    tell(lines)
    sys.exit(SILENT_STATUS if any(SILENT in line for line in lines) else 0)


main()
