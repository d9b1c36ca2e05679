"""How hints show texts of files and words, and which names are near another."""

from __future__ import annotations

from difflib import SequenceMatcher, get_close_matches
from typing import Iterable

LONGEST = 100  # characters of a line that is shown
MOST_NEAR = 3
AS_NEAR = 0.9
MOST_LISTED = 8


def shown(text: str) -> str:
    """A word or a field in quotes, or its beginning if it is long."""
    return f'"{cut(text)}"'


def cut(text: str) -> str:
    """A text, or its beginning if it is long."""
    return text if len(text) <= LONGEST else text[:LONGEST] + ".."


def plain(text: str) -> str:
    """A text on one line. Other characters than printable ones, and bytes that are not UTF-8, are
    written as in a program of Python."""
    return "".join(letter if letter.isprintable() else _escaped(letter) for letter in text)


def _escaped(letter: str) -> str:
    byte = ord(letter) - 0xDC00  # as surrogateescape keeps a byte that is not UTF-8
    return f"\\x{byte:02x}" if 0x80 <= byte <= 0xFF else repr(letter)[1:-1]


def counted(number: int, word: str) -> str:
    """`1 set`, `2 sets`."""
    return f"{number} {word}{'' if number == 1 else 's'}"


def near(text: str, names: Iterable[str]) -> str:
    """` (near: A, B)`, or all that there are if nothing is near, or how many."""
    by_case: dict[str, str] = {}
    for name in names:
        by_case.setdefault(name.upper(), name)
    found = _nearest(text.upper(), by_case)
    return (
        f" (near: {', '.join(by_case[name] for name in found)})" if found
        else listed(by_case.values())
    )


def _nearest(text: str, names: Iterable[str]) -> list[str]:
    """A few names that are about as near as the nearest one."""
    found = get_close_matches(text, names, MOST_NEAR)
    ratios = [SequenceMatcher(None, name, text).ratio() for name in found]
    return [name for name, ratio in zip(found, ratios) if ratio >= AS_NEAR * ratios[0]]


def listed(names: Iterable[str]) -> str:
    """` (there are: A, B)`, or how many there are if they are many."""
    every = list(names)
    if len(every) > MOST_LISTED:
        return f" (none of the {len(every)} that there are is near)"
    return f" (there {'is' if len(every) == 1 else 'are'}: {', '.join(every)})" if every else ""
