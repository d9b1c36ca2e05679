"""The lines before the first occurrence of a stream that tools/record wrote. One of them says where
the program was loaded: `# loaded at 0x108000`."""

from __future__ import annotations

import re

from parts.command import Fault

MOST_LINES = 16
LONGEST = 4096  # bytes of a line
LOADED_AT = re.compile(rb"# loaded at (0x[0-9a-f]{1,16})\r?\n?")


def read_base(stream: str) -> int:
    """Where the program of a recorded stream was loaded."""
    try:
        with open(stream, "rb") as file:
            head = [file.readline(LONGEST) for _ in range(MOST_LINES)]
    except OSError as error:
        raise Fault(f"{stream}: {error.strerror}") from None
    for line in head:
        if match := LOADED_AT.fullmatch(line):
            return int(match[1], 16)
    raise Fault(
        f"{stream}: its first line does not say where the program was loaded, as those of "
        "tools/record do"
    )
