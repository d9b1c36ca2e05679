"""The functions of a crate's sources, by the toolchain's tokens: names, and lines of bodies."""

from __future__ import annotations

import json
import re
import subprocess
from dataclasses import dataclass
from pathlib import Path
from typing import Iterable, Iterator, Optional

OPENS, CLOSES = "([{", ")]}"
HEADS = ("fn", "impl", "trait", "mod", "macro_rules")
PATHS = (".", "::", ":")
NO_NAMES = ("mut", "dyn", "unsafe")


@dataclass(frozen=True)
class Token:
    line: int
    is_code: bool
    text: str


@dataclass(frozen=True)
class Function:
    """A function by the name that a check prints, its first line, and the lines of its body alone.

    Two of one cycle are proved together, and one that calls itself is a cycle of its own. A
    constant one may be part of what others say."""

    name: str
    file: str
    begin: int
    first: int
    last: int
    is_const: bool = False
    cycle: str = ""

    def has(self, file: str, line: int) -> bool:
        return self.file == file and self.first <= line <= self.last

    @property
    def together(self) -> str:
        """What two functions have in common that a round may not both change."""
        return self.cycle or self.name


@dataclass
class _Head:
    """An item up to its body: its keyword, the tokens after that, and what stood before it."""

    word: str
    begin: int
    line: int
    tokens: list[str]
    is_const: bool = False
    cycle: str = ""
    body: int = 0


def tokens_of(rattle: str, folder: Path, files: list[str]) -> dict[str, list[Token]]:
    """The tokens of each file."""
    words = [rattle, "fmt", "--tokens", *files]
    ran = subprocess.run(words, cwd=folder, capture_output=True, text=True, check=True)
    found = {}
    for file, rows in zip(files, re.split(r"(?m)^file \d+\n", ran.stdout)[1:]):
        split = (row.split(" ", 4) for row in rows.splitlines())
        found[file] = [
            Token(int(line), kind in ("Code", "Literal"), json.loads(text))
            for line, _, _, kind, text in split
        ]
    return found


def functions_of(rattle: str, crate: str, folder: Path) -> list[Function]:
    """The functions of a crate's sources."""
    files = sorted(str(path.relative_to(folder)) for path in (folder / "src").rglob("*.rt"))
    read = tokens_of(rattle, folder, files)
    tops = {file: "::".join([crate, *_modules(file)]) for file in files}
    types = {name: tops[file] for file in files for name in _types(read[file])}
    return [each for file in files for each in _functions(file, tops[file], types, read[file])]


def _types(tokens: list[Token]) -> Iterator[str]:
    """The types that a file defines. A method of one is named by the module of its type."""
    for at, token in enumerate(tokens[:-1]):
        if token.is_code and token.text in ("struct", "enum"):
            yield tokens[at + 1].text


def _modules(file: str) -> list[str]:
    parts = file[len("src/") : -len(".rt")].split("/")
    return [part for part in parts if part not in ("lib", "main", "mod")]


def _functions(
    file: str, top: str, types: dict[str, str], tokens: list[Token]
) -> Iterator[Function]:
    """The functions of one file. A stack has the item of each brace that is open, or none."""
    stack: list[Optional[_Head]] = []
    head: Optional[_Head] = None
    depth, since = 0, 0
    code = [token for token in tokens if token.is_code]
    for at, token in enumerate(code):
        after = code[at + 1].text if at + 1 < len(code) else ""
        if head is None and token.text in HEADS and re.match(r"\w|<|!", after):
            head, depth = _begun(token, code[since:at]), 0
        elif token.text == "{" and not depth:
            if head:
                head.line, head.body = token.line, at
            stack.append(head)
            head, since = None, at + 1
        elif token.text == "}" and not depth:
            ended = stack.pop() if stack else None
            since = at + 1
            if ended and ended.word == "fn" and not _is_in_macro(stack):
                name = _name(top, types, [*stack, ended])
                lines = ended.begin, ended.line + 1, token.line - 1
                cycle = ended.cycle or _own_cycle(name, code[ended.body : at])
                yield Function(name, file, *lines, ended.is_const, cycle)
        elif token.text == ";" and not depth:
            head, since = None, at + 1
        elif head:
            depth += (token.text in OPENS) - (token.text in CLOSES)
            head.tokens.append(token.text)


def _own_cycle(name: str, body: list[Token]) -> str:
    """The cycle of a function that calls itself, in the words of its body."""
    last, before = name.rpartition("::")[2], ["", ""]
    for token, after in zip(body, body[1:]):
        on_another = before[1] in PATHS and before[0].lower() != "self"
        if token.text == last and after.text == "(" and not on_another:
            return f"cycle {name}"
        if token.text not in PATHS:
            before[0] = token.text
        before[1] = token.text
    return ""


def _is_in_macro(stack: list[Optional[_Head]]) -> bool:
    return any(each and each.word == "macro_rules" for each in stack)


def _begun(token: Token, before: list[Token]) -> _Head:
    """An item that begins, with what stands between the one before it and its keyword."""
    words = [each.text for each in before]
    cycle = re.search(r"# \[ cycle \( (\w+) \) \]", " ".join(words))
    begin = before[0].line if before else token.line
    named = f"cycle {cycle[1]}" if cycle else ""
    return _Head(token.text, begin, token.line, [], "const" in words, named)


def _name(top: str, types: dict[str, str], heads: Iterable[Optional[_Head]]) -> str:
    """The name of the last of these items, each of which stands in the one before it."""
    labels: list[str] = []
    for head in heads:
        if head and head.word == "impl":
            label, of_type = _impl_label(head.tokens)
            if of_type in types:
                top, labels = types[of_type], []
            labels.append(label)
        elif head:
            labels.append(head.tokens[0] if head.tokens else "")
    return "::".join([top, *labels])


def _impl_label(tokens: list[str]) -> tuple[str, str]:
    """What a check calls an impl, by its type and its trait, and the type if it has no trait."""
    end = tokens.index("where") if "where" in tokens else len(tokens)
    begin = _closing(tokens, 0) if tokens[:1] == ["<"] else 0
    free, tokens = set(tokens[:begin]), tokens[begin:end]
    splits = [at for at, word in enumerate(tokens) if word == "for" and _is_even(tokens[:at])]
    name, given = _named(tokens[splits[0] + 1 :] if splits else tokens, free)
    if not splits:
        return "+".join([name, *given]), "" if given else name
    trait, given_there = _named(tokens[: splits[0]], free)
    if trait == "Drop":
        return name, ""
    return "".join([name, *map(_capital, given), trait, *map(_capital, given_there)]), ""


def _capital(name: str) -> str:
    return name[:1].upper() + name[1:]


def _is_even(tokens: list[str]) -> bool:
    """Whether no bracket of a list of types is open at the end."""
    return sum(_step(tokens, at) for at in range(len(tokens))) == 0


def _step(tokens: list[str], at: int) -> int:
    """1 at a bracket that opens a list of types, -1 at one that closes it."""
    return (tokens[at] == "<") - (tokens[at] == ">" and tokens[at - 1] != "-")


def _closing(tokens: list[str], at: int) -> int:
    """The place after the bracket that closes the one there."""
    depth = 0
    for place in range(at, len(tokens)):
        depth += _step(tokens, place)
        if not depth:
            return place + 1
    return len(tokens)


def _named(tokens: list[str], free: set[str]) -> tuple[str, list[str]]:
    """The last name of a path, and those of the types that it is given, but for free ones."""
    start = tokens.index("<") if "<" in tokens else len(tokens)
    words = [word for word in tokens[:start] if re.fullmatch(r"[A-Za-z_]\w*", word)]
    names = [word for word in words if word not in NO_NAMES]
    inside = _split(tokens[start + 1 : _closing(tokens, start) - 1])
    types = [_named(given, free)[0] for given in inside if given and given[0][0] != "'"]
    return names[-1] if names else "", [each for each in types if each not in free]


def _split(tokens: list[str]) -> Iterator[list[str]]:
    """What stands between the commas of a list of types."""
    found: list[str] = []
    depth = 0
    for at, word in enumerate(tokens):
        depth += _step(tokens, at) + (word in "([") - (word in ")]")
        if word == "," and not depth:
            yield found
            found = []
        else:
            found.append(word)
    yield found
