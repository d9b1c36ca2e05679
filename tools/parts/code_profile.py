"""What functions, lines and calls of a program did, as the tool of Valgrind tells it."""

from __future__ import annotations

import re
from collections import Counter
from dataclasses import dataclass, field

ESCAPED = re.compile(rb"\\x([0-9a-f]{2})")
NO_NAME = "\\"

# A function by its object and its address there; and a line by its function, its file, its number,
# and the function that is inlined there.
FunctionKey = tuple[str, int]
LineKey = tuple[FunctionKey, str, int, str]


@dataclass
class CodeFunction:
    """Names that are not known are empty."""

    object: str
    entry: int
    symbol: str = ""
    file: str = ""
    line: int = 0
    calls: int = 0
    inclusive: Counter[str] = field(default_factory=Counter)  # by kind of occurrence

    def name(self) -> str:
        return self.symbol or f"{self.entry:#x}"


@dataclass
class CodeCalls:
    count: int = 0
    inclusive: Counter[str] = field(default_factory=Counter)


@dataclass
class CodeProfile:
    functions: dict[FunctionKey, CodeFunction] = field(default_factory=dict)
    lines: dict[LineKey, Counter[str]] = field(default_factory=dict)
    calls: dict[tuple[LineKey, FunctionKey], CodeCalls] = field(default_factory=dict)

    def add(self, other: CodeProfile) -> None:
        """The same functions of another program are these."""
        for key, function in other.functions.items():
            before = self.functions.get(key)
            if before is None:
                self.functions[key] = function
                continue
            before.calls += function.calls
            before.inclusive.update(function.inclusive)
        for place, own in other.lines.items():
            self.lines.setdefault(place, Counter()).update(own)
        for way, calls in other.calls.items():
            known = self.calls.setdefault(way, CodeCalls())
            known.count += calls.count
            known.inclusive.update(calls.inclusive)


def text_of(word: bytes) -> str:
    """A name as the tool writes it."""
    if word == NO_NAME.encode():
        return ""
    unescaped = ESCAPED.sub(lambda match: bytes([int(match[1], 16)]), word)
    return unescaped.decode("utf-8", "surrogateescape")


def _counts(words: list[bytes]) -> Counter[str]:
    return Counter({kind.decode(): int(count) for kind, count in zip(words[::2], words[1::2])})


@dataclass
class ProfileReader:
    """Takes the lines of one program, in which functions have numbers."""

    profile: CodeProfile = field(default_factory=CodeProfile)
    keys: dict[bytes, FunctionKey] = field(default_factory=dict)

    def take(self, word: bytes, rest: bytes) -> None:
        words = rest.split()
        if word == b"code":
            self._take_function(words)
        elif word == b"line":
            line = self._line(words)
            self.profile.lines.setdefault(line, Counter()).update(_counts(words[4:]))
        else:
            way = (self._line(words), self.keys[words[4]])
            calls = self.profile.calls.setdefault(way, CodeCalls())
            calls.count += int(words[5])
            calls.inclusive.update(_counts(words[6:]))

    def _line(self, words: list[bytes]) -> LineKey:
        return self.keys[words[0]], text_of(words[2]), int(words[1]), text_of(words[3])

    def _take_function(self, words: list[bytes]) -> None:
        number, entry, code_object, symbol, file, line, calls, *counts = words
        key = self.keys[number] = text_of(code_object), int(entry)
        found = self.profile.functions.setdefault(
            key, CodeFunction(*key, text_of(symbol), text_of(file), int(line))
        )
        found.calls += int(calls)
        found.inclusive.update(_counts(counts))
