"""The manual page of a tool (mdoc), made of its usage text and of its examples."""

from __future__ import annotations

import re
import textwrap

from parts.tools_page import plain
from parts.usage import Usage, read_errors

STATUSES = (
    ("0", "Done."),
    ("1", "The tool says no. The output is whole."),
    ("2", "The words, a file or a line of a stream are refused."),
    ("3", "An opening or a read failed."),
    ("4", "Out of memory. What was written is a prefix of the output."),
    ("5", "A write failed. What was written is a prefix of the output."),
)
HINTS = (
    "The script that runs the tool adds lines that begin with hint: to standard error, on what was "
    "refused or not found. With 0 it adds none. "
    "The word --quiet leaves them out too, and the line that shows on a terminal how far a run has "
    "come. With the word --strict the status is 1 in place of 0 if a call was "
    "refused, or if a native event counted 0 because the streams lack its code."
)

WIDTH = 78


def escaped(text: str) -> str:
    """A line that mdoc prints as it is."""
    text = text.replace("\\", "\\e").replace("-", "\\-")
    return "\\&" + text if text.startswith((".", "'")) else text


def literal(text: str) -> list[str]:
    return [escaped(line) for line in text.splitlines()]


def sentences(text: str) -> list[str]:
    """A paragraph, each sentence on lines of its own, as mdoc wants it."""
    parts = re.split(r"(?<=[.:]) (?=[A-Z`(])", text)
    return [
        escaped(line)
        for part in parts
        for line in textwrap.wrap(
            plain(part), WIDTH, break_long_words=False, break_on_hyphens=False
        )
    ]


def synopsis(line: str) -> list[str]:
    """The words of a tool by mdoc's macros."""
    return [_macros(part) for part in re.findall(r"\[[^\]]*\]|-\S+ [A-Z]+|\S+", line)]


def _macros(part: str) -> str:
    if part.startswith("["):
        return f".Op {_macros(part[1:-1])[1:]}"
    macros = []
    for word in part.split():
        if word.startswith("-"):
            macros.append("Fl " + word[1:].replace("-", "\\-"))
        else:
            macros.append("Ar " + word.replace("..", " ...").replace("|", "\\||"))
    return "." + " ".join(macros)


def manual_page(usage: Usage, summary: str, date: str) -> str:
    lines = [
        (
            '.\\" Made by tools/make_pages out of bin/usage and examples. Change those, and run it '
            'again.'
        ),
        f".Dd {date}",
        f".Dt {usage.tool.upper()} 1",
        ".Os",
        ".Sh NAME",
        f".Nm {usage.tool}",
        f".Nd {escaped(summary)}",
        ".Sh SYNOPSIS",
        f".Nm {usage.tool}",
        *synopsis(usage.line),
        ".Sh DESCRIPTION",
        *sentences(usage.lead),
    ]
    if usage.options:
        lines += [".Pp", "The words are as follows:", ".Bl -tag -width Ds"]
        for option in usage.options:
            lines += [
                f".It {_macros(option.word)[1:]}",
                *sentences(option.meaning[0].upper() + option.meaning[1:] + "."),
            ]
        lines.append(".El")
    for note in usage.notes:
        lines += [".Pp", *sentences(note)]
    if usage.calls:
        lines.append(".Bl -tag -width Ds")
        for option in usage.calls:
            name, *taken = option.word.split()
            lines += [
                f".It Ic {name}" + (f" Ar {' '.join(taken)}" if taken else ""),
                *sentences(option.meaning[0].upper() + option.meaning[1:] + "."),
            ]
        lines.append(".El")
    lines += [
        ".Sh ENVIRONMENT", ".Bl -tag -width Ds", ".It Ev KISTALUB_HINTS", *sentences(HINTS), ".El",
    ]
    lines += [".Sh EXIT STATUS", ".Bl -tag -width Ds"]
    for number, meaning in STATUSES:
        lines += [f".It {number}", *sentences(meaning)]
    lines += [".El", ".Sh EXAMPLES", "These are run at the top of the repository."]
    for example in usage.examples:
        lines += [
            ".Pp", *sentences(example.title), ".Bd -literal -offset indent",
            escaped(f"$ {example.command}"), *literal(example.output), ".Ed",
        ]
    lines += [".Sh DIAGNOSTICS", ".Bl -tag -width Ds"]
    for error in read_errors():
        if error.origin in usage.origins() and not error.text.startswith("("):
            lines += [
                f".It {escaped(error.text)}", *sentences(error.cause), *sentences(error.remedy),
            ]
    lines += [
        ".El", ".Sh SEE ALSO", *_others(usage.tool), ".Pp",
        "docs/FORMATS.md has the formats of the files.",
    ]
    return "\n".join(lines) + "\n"


def _others(tool: str) -> list[str]:
    from parts.usage import tools

    names = sorted(set(tools()) - {tool})
    return [f".Xr {name} 1" + (" ," if name != names[-1] else "") for name in names]
