"""Which crates a change touches, and how long proving them takes."""

from __future__ import annotations

import re
import subprocess
from dataclasses import dataclass, field
from pathlib import Path

from here import ROOT

from parts.command import Fault
from proof_costs import EDITS, PROOF, TESTS, Job

FUNCTION = re.compile(
    r"(\s*)(?:pub(?:\([a-z]+\))? )?(?:const )?(?:unsafe )?(?:extern \"C\" )?fn \w+"
)
IN_CRATE = re.compile(r"crates/(\w+)/(\w[\w-]*)/(.+)")
BODY, CONTRACT, EDIT = "body", "contract", "edit"
NOTHING = ""


@dataclass
class Touched:
    """Crates by what was changed of them."""

    contracts: set[str] = field(
        default_factory=set
    )  # what others see, or may see: those above are proved again too
    bodies: set[str] = field(default_factory=set)
    edits: set[str] = field(default_factory=set)

    def add(self, crate: str, kind: str) -> None:
        if kind:
            {CONTRACT: self.contracts, BODY: self.bodies, EDIT: self.edits}[kind].add(crate)


def git(*words: str) -> str:
    done = subprocess.run(
        ["git", *words], cwd=ROOT, capture_output=True, text=True, errors="surrogateescape"
    )
    if done.returncode:
        raise Fault(done.stderr.strip().partition("\n")[0] or f"git {words[0]} failed")
    return done.stdout


def changed_files(since: str) -> list[str]:
    """The files that differ from a revision, also those that git does not have yet."""
    differing = git("diff", "--name-only", "--no-renames", "-z", since, "--")
    new = git("ls-files", "--others", "--exclude-standard", "-z")
    return sorted({name for name in (differing + new).split("\0") if name})


def before(since: str, name: str) -> str:
    """A file in a revision; empty if it has none."""
    return (
        git("show", f"{since}:{name}") if git("ls-tree", "--name-only", since, "--", name) else ""
    )


def now(name: str) -> str:
    path = ROOT / name
    return path.read_text(encoding="utf-8", errors="surrogateescape") if path.is_file() else ""


def without_bodies(text: str) -> list[str]:
    """The lines of a file of code as rt fmt lays it out, without the bodies of functions and
    without comments."""
    kept: list[str] = []
    indent: str | None = (
        None  # of the function whose signature and clauses, or whose body, stand here
    )
    in_body = False
    for line in text.splitlines():
        if in_body:
            if line == f"{indent}}}":
                indent, in_body = None, False
            continue
        if line.strip() and not line.lstrip().startswith("//"):
            kept.append(line)
        if found := FUNCTION.match(line):
            indent = found[1]
        if indent is not None:
            in_body = begins_body(line, indent)
            indent = None if line.endswith((" {}", " }", ";")) and found else indent
    return kept


def begins_body(line: str, indent: str) -> bool:
    """Whether the body of a function with this indent begins at the end of a line: of its own,
    of a signature of one line, or of the last of several."""
    return line == f"{indent}{{" or (
        line.endswith(" {")
        and (
            bool(FUNCTION.match(line)) or line.startswith(f"{indent}) ") or line == f"{indent}) {{"
        )
    )


def kind_of(name: str, since: str, listed: set[str]) -> tuple[str, str]:
    """The crate of a file, and what of it a change of the file is; nothing if it is not proved."""
    found = IN_CRATE.fullmatch(name)
    if not found or found[1] not in listed:
        return NOTHING, NOTHING
    crate, part, rest = found.groups()
    if part in ("must-fail", "edits"):
        return crate, EDIT
    if part == "specs" or (part == "proofs" and "/" not in rest):
        return crate, CONTRACT
    if part == "proofs":
        return crate, BODY
    if part == "src":
        return (
            crate,
            BODY if without_bodies(before(since, name)) == without_bodies(now(name)) else CONTRACT,
        )
    return NOTHING, NOTHING


def lines_of(text: str) -> dict[str, str]:
    """The lines of crates.txt by their crates."""
    return {
        line.partition(":")[0].split()[0]: line
        for line in text.splitlines()
        if line.partition(":")[0].strip() and not line.startswith("#")
    }


def touched(since: str) -> Touched:
    """What a change since a revision touches."""
    found = Touched()
    names = changed_files(since)
    listed = lines_of(now("crates.txt"))
    for name in names:
        found.add(*kind_of(name, since, set(listed)))
    if "crates.txt" in names:
        old = lines_of(before(since, "crates.txt"))
        found.contracts |= {crate for crate, line in listed.items() if old.get(crate) != line}
    if "HANDLES" in names:
        found.contracts |= set(listed)
    found.bodies -= found.contracts
    return found


def above(crates: set[str], cited: dict[str, list[str]]) -> set[str]:
    """The crates that use these, directly or by others."""
    found = set(crates)
    while more := {
        name for name, uses in cited.items() if name not in found and found.intersection(uses)
    }:
        found |= more
    return found - crates


def seconds_of(crate: str, costs: dict[Job, float]) -> float:
    return sum(costs.get((crate, kind), 0) for kind in (PROOF, TESTS))


def longest(crates: set[str], cited: dict[str, list[str]], costs: dict[Job, float]) -> float:
    """The seconds of the chain that takes longest: a crate waits for the proofs of those below
    it."""
    ended: dict[str, float] = {}

    def end_of(crate: str) -> float:
        if crate not in ended:
            ended[crate] = max(
                (end_of(name) for name in cited.get(crate, []) if name in crates), default=0
            ) + costs.get((crate, PROOF), 0)
        return ended[crate]

    return max((end_of(crate) + costs.get((crate, TESTS), 0) for crate in crates), default=0)


@dataclass(frozen=True)
class Time:
    """How long proving some crates takes."""

    processor: float
    wall: float
    unknown: tuple[str, ...]


def time_of(
    crates: set[str], cited: dict[str, list[str]], costs: dict[Job, float], processors: int
) -> Time:
    total = sum(seconds_of(crate, costs) for crate in crates)
    unknown = tuple(sorted(crate for crate in crates if (crate, PROOF) not in costs))
    return Time(total, max(total / processors, longest(crates, cited, costs)), unknown)


def edits_of(crates: set[str], costs: dict[Job, float]) -> float:
    return sum(costs.get((crate, EDITS), 0) for crate in crates)


def has_tests(crate: str) -> bool:
    return any(
        "#[test]" in path.read_text(encoding="utf-8")
        for path in Path(ROOT, "crates", crate, "src").rglob("*.rt")
    )
