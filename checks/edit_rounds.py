"""The edits of a crate, which of them one check tries together, and what it says of each."""

from __future__ import annotations

import re
import subprocess
from dataclasses import dataclass, field
from pathlib import Path
from typing import Any, Iterable, Iterator, Optional, Sequence

from edit_kit import rt
from edit_source import Function

MOST_TOGETHER = 20  # edits of a check, so that the processors have about the same work
NAME = re.compile(r"[A-Za-z0-9_-][A-Za-z0-9_.-]*\.edit")
PLACE = re.compile(r"(?:note: )?(?:\./)?((?:src|specs|proofs)/\S+?):(\d+):\d+: ")
ASKED = re.compile(r"only=\d+ (proved|holes)=\d+")
NOT_PROVED = "logic=not-proved"
REFUSALS = ("not proved", "no proof")
OWN_PROOFS = ("Answers.antt", "Invariants.antt")
OPEN = "did not prove"  # a goal of the function itself
DEPENDS = re.compile(r"was rejected|(was|were) not checked|was not admitted")


@dataclass(frozen=True)
class Edit:
    """An edit: the texts that it changes in turn, their lines, and the functions of all of these.

    No functions: it changes something else too."""

    path: Path
    pairs: tuple[tuple[str, str, str], ...]
    lines: tuple[tuple[str, int], ...] = ()
    functions: tuple[Function, ...] = ()

    @property
    def goes_alone(self) -> bool:
        return len(self.functions) != 1 or self.functions[0].is_const

    def apply(self, texts: dict[str, str]) -> Optional[dict[str, str]]:
        """The texts with the edit, or none if it does not stand in them as in the crate's own."""
        made = dict(texts)
        for file, old, new in self.pairs:
            if made[file].count(old) != 1:
                return None
            made[file] = made[file].replace(old, new)
        return made


@dataclass(frozen=True)
class StandIn:
    """A proof with one hole, which is taken for any function's own."""

    crate: str
    function: str

    def put(self, room: Path) -> None:
        """Puts it in the place of the function's own in a copy of the crate."""
        parts = self.function[len(self.crate) + 2 :].split("::")
        folder = Path(room, "proofs", *parts)
        folder.mkdir(parents=True, exist_ok=True)
        for own in OWN_PROOFS:
            (folder / own).unlink(missing_ok=True)
        name = f"{parts[-1]}_spec"
        (folder / "Proof.antt").write_text(
            f"use Rattle.{self.crate}.proofs.{'.'.join(parts)}.Statement.{{statement}}\n\n"
            f"pub {name} : {{M : Type 1}} → statement M\n{name} = ?\n",
            encoding="utf-8",
        )


@dataclass
class Round:
    """Edits that one check tries together, each on a function of its own, or one edit alone.

    What it says of an edited function does not rest on how other functions are proved, so the
    check takes those of `others` at their word: a proof with a hole stands in for their own."""

    crate: Any
    edits: list[Edit]
    texts: dict[str, str]
    is_whole: bool = False
    used: set[str] = field(default_factory=set)
    others: Sequence[Function] = ()

    def functions(self) -> list[str]:
        """The functions that the check is asked for."""
        names = {function.name for edit in self.edits for function in edit.functions}
        return [] if self.is_whole else sorted(names)

    def flags(self) -> list[str]:
        words = ["--allow-holes"] if self.others else []
        return words + [word for name in self.functions() for word in ("--only", name)]

    def stand_ins(self) -> Iterator[StandIn]:
        """The proofs that stand in for those of the functions that no edit changes."""
        edited = self.functions()
        for other in self.others:
            within = any(f"{other.name}::".startswith(f"{name}::") for name in edited)
            if not (within or other.is_const or other.cycle):
                yield StandIn(self.crate.name, other.name)

    def takes(self, edit: Edit) -> bool:
        """Adds an edit if it can be tried beside the others."""
        asked = {function.together for function in edit.functions}
        if asked & self.used or len(self.edits) >= MOST_TOGETHER:
            return False
        made = edit.apply(self.texts)
        if made is None:
            return False
        self.edits.append(edit)
        self.texts = made
        self.used |= asked
        return True


def edit_files(folder: Path) -> tuple[list[Path], list[Path]]:
    """The edits that stand right in a folder, and what stands there and is none."""
    files = [path for path in sorted(folder.glob("*")) if path.is_file()]
    good = [path for path in files if NAME.fullmatch(path.name)]
    return good, [path for path in files if path not in good and path.suffix != ".md"]


def read_pairs(text: str) -> Iterator[tuple[str, str, str]]:
    """The file, the old text and the new one of each pair, as rt reads them."""
    file = old = ""
    for line in text.split("\n"):
        if line.startswith("file: "):
            file = line[len("file: ") :].strip()
        elif line.startswith("old: "):
            old = line[len("old: ") :]
        elif line.startswith("new:"):
            new = line[len("new:") :]
            yield file, old, new[1:] if new.startswith(" ") else new


def read(path: Path, texts: dict[str, str], functions: list[Function]) -> Edit:
    """An edit that rt can apply, with the functions that it changes."""
    pairs = tuple(read_pairs(path.read_text(encoding="utf-8", errors="replace")))
    made, lines = dict(texts), []
    for file, old, new in pairs:
        lines.append((file, made[file].count("\n", 0, made[file].index(old)) + 1))
        made[file] = made[file].replace(old, new)
    owners = [_owner(functions, file, line) for file, line in lines]
    own = tuple(dict.fromkeys(each for each in owners if each))
    return Edit(path, pairs, tuple(lines), own if None not in owners else ())


def _owner(functions: list[Function], file: str, line: int) -> Optional[Function]:
    """The innermost function whose body has the line."""
    having = [each for each in functions if each.has(file, line)]
    return min(having, key=lambda each: each.last - each.first, default=None)


def plan(
    crate: Any, edits: Iterable[Edit], texts: dict[str, str], functions: Sequence[Function] = ()
) -> list[Round]:
    """As few rounds as there can be with one edit a function in each.

    The check takes the other ones of these functions at their word.

    An edit of something else than one function, or of a constant one, has a round of its own."""
    lone: list[Round] = []
    rounds: list[Round] = []
    for edit in edits:
        if edit.goes_alone:
            lone.append(alone(crate, edit, texts))
        elif not any(each.takes(edit) for each in rounds):
            rounds.append(Round(crate, [], texts, others=functions))
            rounds[-1].takes(edit)
    return rounds + lone


def alone(crate: Any, edit: Edit, texts: dict[str, str], is_whole: bool = False) -> Round:
    """A round of this edit: over the functions that it changes, or as rt tries it."""
    made = edit.apply(texts)
    assert made is not None
    return Round(crate, [edit], made, is_whole or not edit.functions)


def as_whole(check: subprocess.CompletedProcess[str]) -> subprocess.CompletedProcess[str]:
    """A check of functions in the words of one of the whole crate, which is refused if they are."""
    lines = check.stdout.rstrip("\n").split("\n")
    if check.returncode == 1 and ASKED.match(lines[-1]):
        lines[-1] = NOT_PROVED
    return subprocess.CompletedProcess([], check.returncode, "\n".join(lines))


def judge(
    turn: Round, check: subprocess.CompletedProcess[str]
) -> tuple[dict[Edit, subprocess.CompletedProcess[str]], list[Edit]]:
    """Of each edit that is refused for its own sake, what a check of it alone would have said.

    And the edits that made the check end before it could judge any."""
    lines = check.stdout.rstrip("\n").split("\n")
    changed = {file for edit in turn.edits for file, _ in edit.lines}
    unread = [line for line in lines if rt().unread(line, changed)]
    if check.returncode != 1 or not ASKED.match(lines[-1]) or unread:
        wrong = unread or [line for line in lines if re.search(r"\berror\b", line)]
        return {}, _at(turn.edits, wrong)
    seen = {edit: _seen_alone(turn, edit, lines) for edit in turn.edits}
    return {edit: found for edit, found in seen.items() if found}, []


def _at(edits: list[Edit], lines: list[str]) -> list[Edit]:
    """The edits of these lines of the output, or all if it names none."""
    places = {(found[1], int(found[2])) for found in map(PLACE.match, lines) if found}
    return [edit for edit in edits if places & set(edit.lines)] or edits


def _seen_alone(
    turn: Round, edit: Edit, lines: list[str]
) -> Optional[subprocess.CompletedProcess[str]]:
    """What the check says of the edit's function, if it refuses that for the edit's sake."""
    function = edit.functions[0]
    refused = [said for said in _said_of(function, lines) if said.startswith(REFUSALS)]
    own = [line for line in lines if _is_of(function, turn.crate.name, line)]
    errors = [line for line in own if ": error" in line and not DEPENDS.search(line)]
    if not refused or not (errors or any(OPEN in said for said in refused)):
        return None
    return subprocess.CompletedProcess([], 1, "\n".join([*own, NOT_PROVED]))


def _said_of(function: Function, lines: list[str]) -> Iterator[str]:
    """What a check says of a function and of its closures, whose names have one more `fn`."""
    for line in lines:
        head, _, said = line.partition(": ")
        name = head[len("fn ") :].replace("::fn::", "::")
        if head.startswith("fn ") and f"{name}::".startswith(f"{function.name}::"):
            yield said


def _is_of(function: Function, crate: str, line: str) -> bool:
    """Whether a line of the output is of the function's body or of its proof."""
    found = PLACE.match(line)
    if not found:
        return False
    proofs = f"proofs/{function.name[len(crate) + 2 :].replace('::', '/')}/"
    inside = function.begin <= int(found[2]) <= function.last + 1
    return found[1].startswith(proofs) or (found[1] == function.file and inside)
