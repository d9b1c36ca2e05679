"""The hints on one call of a tool."""

from __future__ import annotations

from answers import answer_hints
from errors import error_hints
from formats.forms import Form, near_tools
from formats.texts import shown
from formats.words import Words, word_faults
from refused import refusal_hints
from silent import silent_hints

ANSWERED = (0, 1)  # the statuses of a whole answer
BAD_WORDS = "papi: bad words"
OF_PROGRAM = "papi: "


def hints_on(name: str, status: int, tool: str, words: list[str], lines: list[str]) -> list[str]:
    """The hints on a call that ended with this status. The lines are those of standard error, and
    replies of standard output. NAME is what the tool is called by."""
    form = Form.of(tool)
    if form is None:
        return [f"there is no tool {shown(tool)}{near_tools(tool)}", "papi --help lists the tools"]
    read = Words.read(form, words)
    said = [line for line in lines if line.startswith(OF_PROGRAM)]
    if BAD_WORDS in said:
        return [*word_faults(form, read), f"{name} --help prints the usage"]
    hints = answer_hints(tool, read) if status in ANSWERED else error_hints(read, said)
    if tool == "papi_run":
        hints += refusal_hints(read, lines)
    return hints + silent_hints(tool, read, lines) if status == 0 else hints
