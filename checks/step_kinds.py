"""Why the sides of `steps` differ: each kind of difference with the row of docs/DIFFERENCES.md that
says so."""

from __future__ import annotations

from dataclasses import dataclass, field

from here import CHECKS

from step_scripts import Script
from step_sides import CRASH, NO_END, Replies, Reply
from step_state import Model

ANY = "*"
OK = "PAPI_OK"
SHORT = {
    "EVENTS": "add remove overflow code",
    "SETS": "destroy cleanup add remove component domain multiplex overflow start stop read accum "
    "reset"
    " state events",
    "NAMES": "PAPI_ENOEVNT|PAPI_ECMP|PAPI_ENOSUPP",
}


@dataclass(frozen=True)
class Kind:
    """Differences for one reason, as a line of the table has it."""

    row: str
    calls: str
    papi: str
    here: str
    when: str = ""

    def __str__(self) -> str:
        when = f", {self.when}" if self.when else ""
        return f"{self.calls}{when}: {self.papi} in PAPI, {self.here} here: {self.row}"

    def has(self, call: str, papi: str, here: str, words: set[str]) -> bool:
        return (
            call in self.calls.split()
            and one_of(papi, self.papi)
            and one_of(here, self.here)
            and self.is_so(words)
        )

    def is_so(self, words: set[str]) -> bool:
        needed = [each.strip() for each in self.when.split(",") if each.strip()]
        return all(
            each[4:] not in words if each.startswith("not ") else each in words for each in needed
        )


def one_of(code: str, codes: str) -> bool:
    return codes == ANY or code in codes.split("|")


@dataclass(frozen=True)
class Difference:
    """The last call of a script, and what comes of it."""

    script: Script
    papi: Reply
    here: Reply
    words: frozenset[str]

    @property
    def call(self) -> str:
        return self.script[-1].split()[1]

    @property
    def parts_ways(self) -> bool:
        """Whether the sides are in other states then: one did what the other refused, or has
        ended."""
        return self.papi.code != self.here.code and (
            OK in (self.papi.code, self.here.code) or self.papi.code in (CRASH, NO_END)
        )

    def is_like(self, other: Difference | None) -> bool:
        """Whether another one has the same call and codes, and differs for the same reason."""
        return (
            other is not None
            and (self.call, self.papi.code, self.here.code)
            == (other.call, other.papi.code, other.here.code)
            and kind_of(self) is kind_of(other)
        )


@dataclass
class Outcome:
    """A script up to where the sides part ways: what was so at each call, and what differs."""

    words: list[frozenset[str]] = field(default_factory=list)
    found: list[Difference] = field(default_factory=list)


def words_of_replies(model: Model, line: str, papi: Reply, here: Reply) -> set[str]:
    """What is so of two replies that give something else."""
    if papi.code != here.code:
        return set()
    if line.split()[1] == "threads":
        return {"each lists its own"} if (papi.gives, here.gives) == model.lists() else set()
    return {f"{papi.gives} for {here.gives}"}


def outcome_of(script: Script, papi: Replies, here: Replies) -> Outcome:
    model, outcome = Model(), Outcome()
    for place, (line, one, other) in enumerate(zip(script, papi, here)):
        words = frozenset(model.words(line))
        outcome.words.append(words)
        if one != other:
            found = Difference(
                script[: place + 1], one, other, words | words_of_replies(model, line, one, other)
            )
            outcome.found.append(found)
            if found.parts_ways:
                break
        model.after(line, other.code != OK, other.gives)
    return outcome


def kind_of(found: Difference) -> Kind | None:
    return next(
        (
            kind
            for kind in KINDS
            if kind.has(found.call, found.papi.code, found.here.code, set(found.words))
        ),
        None,
    )


def read_kinds(text: str) -> list[Kind]:
    lines = (line for line in text.splitlines() if not line.startswith("#"))
    kinds = []
    for line in lines:
        row, calls, papi, here, *when = (cell.strip() for cell in line.split(";"))
        kinds.append(Kind(row, SHORT.get(calls, calls), SHORT.get(papi, papi), here, *when))
    return kinds


KINDS = read_kinds((CHECKS / "step_kinds.table").read_text(encoding="ascii"))
