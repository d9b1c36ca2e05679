"""The manual page of a tool whose words argparse reads (mdoc), and its section in docs/TOOLS.md."""

from __future__ import annotations

import argparse
import runpy
from dataclasses import dataclass
from pathlib import Path
from typing import Iterator, NoReturn

from parts.command import Fault
from parts.manual_page import escaped, sentences, synopsis
from parts.tools_page import cell

OWN_TITLES = ("the program", "the words before it")


@dataclass(frozen=True)
class Page:
    """What a page says beside the words."""

    summary: str
    line: str  # the words as a synopsis has them
    statuses: tuple[tuple[str, str], ...]
    examples: tuple[tuple[str, str], ...]  # what it does, and the command
    see: str = "docs/RECORDING.md says what is recorded, and how the machine is modelled."
    titles: tuple[str, str] = OWN_TITLES  # of the words without a name, and of those with one


class _Found(BaseException):
    """Carries the parser of a program out of it."""


def parser_of(program: Path) -> argparse.ArgumentParser:
    """The parser of a program in Python that reads its words first of all."""

    def find(parser: argparse.ArgumentParser, *given: object) -> NoReturn:
        raise _Found(parser)

    reading = argparse.ArgumentParser.parse_args
    argparse.ArgumentParser.parse_args = find  # type: ignore
    try:
        runpy.run_path(str(program), run_name=program.name)
    except _Found as found:
        return found.args[0]
    finally:
        argparse.ArgumentParser.parse_args = reading  # type: ignore
    raise Fault(f"{program}: reads no words")


def command_section(parser: argparse.ArgumentParser, page: Page) -> list[str]:
    """The section of a program in docs/TOOLS.md."""
    lines = [
        f"## {parser.prog}", "", f"    {parser.prog} {page.line}", "", parser.description or "", "",
    ]
    for number, group in enumerate(parser._action_groups):
        rows = [
            f"| `{cell(_plain_word(action))}` | {cell((action.help or '').replace('%%', '%'))} |"
            for action in group._group_actions if action.help and action.dest != "help"
        ]
        title = str(group.title) if number >= len(OWN_TITLES) else page.titles[number]
        if rows:
            lines += [
                f"{title[0].upper()}{title[1:]}:", "", "| Word | Meaning |", "|---|---|", *rows, "",
            ]
    lines += [
        "| Status | What it means |", "|---|---|",
        *(f"| {number} | {meaning} |" for number, meaning in page.statuses), "",
    ]
    for title, command in page.examples:
        lines += [title, "", "```sh", command, "```", ""]
    return lines


def _plain_word(action: argparse.Action) -> str:
    name = max(action.option_strings, key=len, default="")
    value = str(action.metavar or "|".join(action.choices or ()))
    return f"{name} {value}".strip()


def _word(action: argparse.Action) -> str:
    """An option with its value, or a word, by mdoc's macros."""
    name = max(action.option_strings, key=len, default="")
    value = str(action.metavar or "|".join(action.choices or ()))
    macros = ["Fl " + name[1:].replace("-", "\\-")] * bool(name) + [
        "Ar " + value.replace("|", "\\||")
    ] * bool(value)
    return " ".join(macros)


def _items(actions: list[argparse.Action]) -> Iterator[str]:
    for action in actions:
        if action.help and action.dest != "help":
            text = action.help.replace("%%", "%")
            yield f".It {_word(action)}"
            yield from sentences(text[0].upper() + text[1:] + ".")


def _listed(items: list[str]) -> list[str]:
    return [".Bl -tag -width Ds", *items, ".El"]


def command_page(parser: argparse.ArgumentParser, page: Page, date: str) -> str:
    name = parser.prog
    lines = [
        (
            '.\\" Made by tools/make_pages out of the words of the tool. Change those, and run it '
            'again.'
        ),
        f".Dd {date}",
        f".Dt {name.upper()} 1",
        ".Os",
        ".Sh NAME",
        f".Nm {name}",
        f".Nd {escaped(page.summary)}",
        ".Sh SYNOPSIS",
        f".Nm {name}",
        *synopsis(page.line),
        ".Sh DESCRIPTION",
        *sentences(parser.description or ""),
    ]
    # the first two are argparse's own, and each version of Python has other titles for them
    for number, group in enumerate(parser._action_groups):
        title = str(group.title) if number >= len(OWN_TITLES) else page.titles[number]
        lines += [
            ".Pp", *sentences(f"{title[0].upper()}{title[1:]}:"),
            *_listed(list(_items(group._group_actions))),
        ]
    lines += [
        ".Sh EXIT STATUS",
        *_listed(
            [
                line for number, meaning in page.statuses
                for line in (f".It {number}", *sentences(meaning))
            ]
        ),
    ]
    lines += [".Sh EXAMPLES"]
    for number, (title, command) in enumerate(page.examples):
        lines += [".Pp"] * (number > 0) + [
            *sentences(title), ".Bd -literal -offset indent", escaped(f"$ {command}"), ".Ed",
        ]
    lines += [".Sh SEE ALSO", page.see]
    return "\n".join(lines) + "\n"
