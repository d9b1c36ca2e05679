"""docs/TOOLS.md, made of the usage texts and of the examples."""

from __future__ import annotations

import re
from typing import Sequence

from formats.refusals import RULES, SENTENCES, causes_of
from parts.command import read_file
from parts.usage import ROOT, Error, Usage, read_errors, read_usage, summaries, tools

CONFLICT = "PAPI_ECNFLCT"

HEAD = """# Tools

<!-- Made by tools/make_pages out of bin/usage and examples. Change those, and run it again. -->

Each tool has a script in `bin/`. It prints its usage without words and with `--help`. The manual pages in `man/` say the same:
`man -l man/papi_run.1`. [FORMATS.md](FORMATS.md) has the formats of all files and the rules of all calls.

Run the commands on this page at the top of the repository. Each stands above what it prints on standard output, and then on standard error.

**Hints.** Lines that begin with `hint: ` are not the program's. The scripts in `bin/` add them to standard error if the status is 1 or 2, if a call of a script is refused, if a search
finds nothing, or if a native event of a set that ran counts 0 because no line of the streams has its code. A hint names the word, line, field or name, names that are like it, and the rule
that refuses a call. Hints need Python 3.9. `KISTALUB_HINTS=0` leaves them out.

**Progress.** If standard error is a terminal, the scripts show there how far a run of more than half a second has come: the seconds, and how much of the streams was read. The line goes
before the output comes. With the word `--quiet` a script adds neither hints nor this line. Whatever ends the script ends the program, and no folder of it is left.

**Refusals as failures.** With the word `--strict` a script ends with 1 in place of 0 if a call of a script was refused, or if a native event counted 0 because no line of the streams has its code. The
output stays the same. This needs Python. To find the refused calls of its script, `papi_profil --strict` runs the script once more.

**Without proofs.** While no proved program is built, the scripts run the same code unproved. The first command compiles it, in a minute or two, and later ones answer at once.
`bin/papi --compile` only does this, and prints where the program is. It is kept in `${XDG_CACHE_HOME:-~/.cache}/kistalub`, under a checksum of the code and of the toolchain
(`tools/compile_unproved`). With `KISTALUB_COMPILE=0` it is not compiled: a command that needs it then ends with 127.

"""
STATUSES = """## Statuses

| Status | What it means | Output |
|---|---|---|
| 0 | done | whole |
| 1 | the tool says no: a name is not known, or a given event is refused | whole |
| 2 | the words, a file, or a line of a stream are refused | empty, or whole if it is a line of a stream |
| 3 | an opening or a read failed | empty, or whole if it is a read of a stream |
| 4 | out of memory | a prefix |
| 5 | a write failed | a prefix |
| 127 | a script in `bin/` found neither a built program nor `rt` | empty |

If several hold after the runs of a script, 5 takes precedence over 3, and 3 over 2. A refused call of a script is a reply like any other
and leaves the status 0.

"""
ORIGINS = {
    "words": "Words",
    "files": "Any file",
    "unit": "Unit file (`-U`)",
    "presets": "Preset file (`-P`)",
    "script": "Script",
    "map": "Map file (`-M`)",
    "regions": "Region script",
    "stream": "Stream",
    "memory": "Memory",
    "output": "Output",
    "bin": "The scripts in `bin/`",
}
ERRORS_HEAD = """## Errors

The program writes at most one line on standard error, but for streams: there each thread whose runs met a fault has a line. Row numbers count
the rows of a table without blank lines and lines that begin with `#`. The hint below has the line of the file, and so has `tools/preset_lines FILE`.
The line names the first fault in the order of work: the words, the unit file, the preset file, the map, the script, the openings of the streams, and then the runs.
"""


def cell(text: str) -> str:
    return text.replace("|", "\\|")


CODES_HEAD = """## Codes of replies

A reply of `papi_run` has one of these codes. The number is what a C program gets, and the sentence is PAPI's (`PAPI_strerror`). The last column says which calls of a script the code
refuses, and when. [FORMATS](FORMATS.md#what-the-calls-do) has the order of the refusals of each call.

| Code | Number | Sentence | When |
|---|---|---|---|"""
OF_RUN = "`run`: the run met a bad line of the stream, or a read failed. It is no refusal"
DONE = "the call was carried out"


def codes_section() -> list[str]:
    numbers = dict(
        re.findall(
            r"#define (PAPI_\w+)\s+\(?(-?[0-9]+)\)?", read_file(str(ROOT / "include/fpapi.h"))
        )
    )
    rows = [
        f"| `{code}` | {numbers[code]} | {sentence} | {cell(_when(code))} |"
        for code, sentence in SENTENCES.items()
    ]
    return [*CODES_HEAD.splitlines(), *rows, ""]


def _when(code: str) -> str:
    calls_of: dict[str, list[str]] = {}
    for call in RULES:
        if causes := causes_of(call, code):
            calls_of.setdefault(", or ".join(causes), []).append(f"`{call}`")
    told = [f"{', '.join(calls)}: {cause}" for cause, calls in calls_of.items()]
    if code == CONFLICT:
        told.append(
            "`add`: the native events find no counters beside those of the set. The reply names "
            "those to blame, and after a `/` the counters that they are allowed"
        )
    return "; ".join(told) or {"PAPI_OK": DONE, "PAPI_ESYS": OF_RUN}.get(code, "")


def tools_page(sections: Sequence[tuple[str, str, list[str]]] = ()) -> str:
    """The page. A further section has a name, a summary and lines."""
    usages = [read_usage(tool) for tool in tools()]
    lines = [HEAD.rstrip("\n"), "", "| Tool | |", "|---|---|"]
    lines += [f"| [{tool}](#{tool}) | {cell(summary)} |" for tool, summary in summaries().items()]
    lines += [f"| [{name}](#{name}) | {cell(summary)} |" for name, summary, _ in sections]
    lines += [
        "| | [Codes of replies](#codes-of-replies) |", "| | [Statuses](#statuses) |",
        "| | [Errors](#errors): each with its cause and its remedy |", "",
    ]
    for usage in usages:
        lines += _section(usage)
    for _, _, made in sections:
        lines += made
    lines += codes_section()
    lines += [STATUSES.rstrip("\n"), "", ERRORS_HEAD.rstrip("\n"), ""]
    lines += _errors(read_errors())
    return "\n".join(lines).rstrip("\n") + "\n"


def _section(usage: Usage) -> list[str]:
    lines = [
        f"## {usage.tool}", "", f"    {usage.tool} {usage.line}", "", usage.lead, "",
        "| Word | Meaning |", "|---|---|",
    ]
    lines += [f"| `{cell(option.word)}` | {cell(option.meaning)} |" for option in usage.options] + [
        ""
    ]
    for note in usage.notes:
        lines += [note, ""]
    if usage.calls:
        lines += [
            "| Call | What it does |", "|---|---|",
            *(f"| `{option.word}` | {cell(option.meaning)} |" for option in usage.calls), "",
        ]
    for example in usage.examples:
        lines += [
            example.title, "", "```console", f"$ {example.command}", *example.output.splitlines(),
            "```", "",
        ]
    return lines


def _errors(errors: list[Error]) -> list[str]:
    lines = []
    for origin, title in ORIGINS.items():
        rows = [error for error in errors if error.origin == origin]
        if not rows:
            continue
        lines += [f"### {title}", "", "| Line | Status | Cause | Remedy |", "|---|---|---|---|"]
        for error in rows:
            text = error.text if error.text.startswith("(") else f"`{error.text}`"
            lines.append(
                f"| {cell(text)} | {error.status} | {cell(error.cause)} | {cell(error.remedy)} |"
            )
        lines.append("")
    return lines


def plain(text: str) -> str:
    """A text of the tables without the marks of Markdown."""
    return re.sub(r"`([^`]*)`", r"\1", text)
