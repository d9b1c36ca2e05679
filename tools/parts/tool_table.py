"""The table of tools, crates/tool_words/tools.csv."""

from __future__ import annotations

import csv
import re
from dataclasses import dataclass, fields

from parts.command import Fault

TABLE = "crates/tool_words/tools.csv"
KINDS = ("text", "telling", "quiet", "own")
SAYS_NO = ("", "event", "any")
NAME = re.compile(r"[a-z][a-z_]*")
STEPS = re.compile(r"[a-z][a-z_]*::[a-z][a-z_]*")
LINE = re.compile(r"[ -~]+")
MOST_DOES = 80  # columns of what a tool does
LONGEST = 28  # characters of a name


def camel(name: str) -> str:
    return "".join(word.capitalize() for word in name.split("_"))


@dataclass(frozen=True)
class Tool:
    """A row of the table."""

    name: str
    words: str
    steps: str
    kind: str
    says_no: str
    public: str
    example: str
    reads: str
    does: str
    prints: str
    caption: str

    @property
    def variant(self) -> str:
        return camel(self.name.removeprefix("papi_"))

    @property
    def type(self) -> str:
        return f"{camel(self.words)}Words"

    @property
    def module(self) -> str:
        return self.steps.partition("::")[0]

    @property
    def function(self) -> str:
        return self.steps.partition("::")[2]

    def faults(self) -> list[str]:
        """The columns that are not as they have to be."""
        good = {
            "name": self.name.startswith("papi_") and NAME.fullmatch(self.name)
            and len(self.name) <= LONGEST,
            "words": NAME.fullmatch(self.words),
            "kind": self.kind in KINDS,
            "steps": STEPS.fullmatch(self.steps),
            "says_no": self.says_no in SAYS_NO,
            "public": NAME.fullmatch(self.public),
            "example": NAME.fullmatch(self.example),
            "reads": NAME.fullmatch(self.reads),
            "does": LINE.fullmatch(self.does) and len(self.does) <= MOST_DOES,
            "prints": LINE.fullmatch(self.prints),
            "caption": LINE.fullmatch(self.caption),
        }
        return [column for column, is_good in good.items() if not is_good]


COLUMNS = [field.name for field in fields(Tool)]


def read_tools(text: str) -> list[Tool]:
    """The rows of the table, below the line with the names of the columns."""
    tools: list[Tool] = []
    lines = [
        (number, line) for number, line in enumerate(text.splitlines(), 1)
        if not line.startswith("#")
    ]
    for row, (number, line) in zip(csv.reader(line for _, line in lines), lines):
        if number == lines[0][0]:
            if row != COLUMNS:
                raise Fault(f"{TABLE}: line {number}: the columns are not {','.join(COLUMNS)}")
            continue
        if len(row) != len(COLUMNS):
            raise Fault(f"{TABLE}: line {number}: not {len(COLUMNS)} fields")
        tool = Tool(*row)
        if bad := tool.faults():
            raise Fault(f"{TABLE}: line {number}: bad {bad[0]}")
        for column in ("name", "words", "steps", "public"):
            if any(getattr(tool, column) == getattr(other, column) for other in tools):
                raise Fault(f"{TABLE}: line {number}: {column} stands twice")
        tools.append(tool)
    if not tools:
        raise Fault(f"{TABLE}: no tool")
    return tools
