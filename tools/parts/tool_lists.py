"""What stands around the crates of all tools: their scripts, lists of their names, tables of
documents, and an example of each."""

from __future__ import annotations

import re
from pathlib import Path
from typing import Callable

from parts.command import Fault, read_file
from parts.regions import with_region
from parts.steps_rows import REGIONS as STEPS
from parts.tool_table import TABLE, Tool, read_tools
from parts.usage import ROOT
from parts.words_rows import REGIONS as WORDS

MAKER = "tools/make_tools"
EXAMPLE = "\nExample, at the top of the repository:\n\n"
INDENT = "  "
REGIONS = {**WORDS, **STEPS}
SCRIPT = """#!/bin/sh
# The tool {name}. Without words, and with --help as the first, it prints its usage.
here=$(realpath -- "$0") && exec "${{here%/*}}/papi" --tool {name} "$@"
"""


# ---- rows below a line


def usage_rows(tools: list[Tool]) -> list[str]:
    width = max(len(tool.name) for tool in tools)
    return [f"  {tool.name:<{width}}  {tool.does}" for tool in tools]


def readme_rows(tools: list[Tool]) -> list[str]:
    """Two tools a row."""
    cells = [f"[{tool.name}](docs/TOOLS.md#{tool.name}) | {tool.does}" for tool in tools]
    cells += [" | "] * (len(cells) % 2)
    return [f"| {left} | {right} |" for left, right in zip(cells[::2], cells[1::2])]


# Files with a list of all tools below a text, up to an empty line.
LISTS: dict[str, tuple[str, Callable[[list[Tool]], list[str]]]] = {
    "bin/usage/papi": ("The tools, each with a script of its own:\n\n", usage_rows),
    "README.md": (
        "| Tool | What it does | Tool | What it does |\n|---|---|---|---|\n", readme_rows,
    ),
}


def with_list(name: str, text: str, head: str, lines: list[str]) -> str:
    """The text of a file with these lines below a text that stands there once."""
    front, found, back = text.partition(head)
    if not found or head in back:
        raise Fault(f"{name}: does not have once: {head.splitlines()[0]}")
    return front + head + "\n".join(lines) + back[back.index("\n\n") :]


# ---- names on a line

# Programs of tools/ that are installed beside the tools.
PROGRAMS = ("papi_compare", "papi_count", "papi_plan", "papi_record")
# Files with the names of all tools and of these in a row, after these texts.
NAMES = {
    "completions/kistalub.bash": ("complete -F _kistalub ",),
    "completions/kistalub.fish": ("for tool in ",),
    "completions/kistalub.zsh": ("#compdef ", "    compdef _kistalub "),
}


def with_names(name: str, text: str, front: str, tools: list[Tool]) -> str:
    """The text of a file with the names of all tools and programs after this text."""
    names = " ".join(sorted([*(tool.name for tool in tools), *PROGRAMS]))
    text, times = re.subn(
        rf"^({re.escape(front)})papi_\w+( papi_\w+)*$", rf"\g<1>{names}", text, flags=re.MULTILINE
    )
    if times != 1:
        raise Fault(f"{name}: does not have once: {front}papi_..")
    return text


# ---- regions


def checked_lines(tools: list[Tool]) -> list[str]:
    runs = ", ".join(f'"{tool.name}"' for tool in tools if tool.kind in ("telling", "quiet"))
    return [
        "# The tools, each with an example that reads all kinds of files that the tool reads.",
        "EXAMPLE_OF = {",
        *(f'    "{tool.name}": "{tool.reads}",' for tool in tools),
        "}",
        "TOOLS = tuple(EXAMPLE_OF)",
        "",
        "# Those that run a script over streams.",
        f"RUNNING = ({runs})",
    ]


def titles(tools: list[Tool]) -> list[str]:
    return [f"{tool.example}: {tool.caption}" for tool in tools]


def usage_of(tool: Tool, root: Path) -> str:
    """The words of a tool, as its usage begins with them."""
    line = read_file(str(root / f"bin/usage/{tool.name}")).partition("\n")[0]
    return line.removeprefix(f"Usage: {tool.name}").strip()


def words_rows(tools: list[Tool], root: Path) -> list[str]:
    rows = ((tool.name, usage_of(tool, root).replace("|", "\\|"), tool.prints) for tool in tools)
    return [
        "| Tool | Words | Prints |", "|---|---|---|",
        *(f"| `{name}` | `{words}` | {prints} |" for name, words, prints in rows),
    ]


def example_texts(tool: Tool, root: Path) -> dict[str, str]:
    """The example at the end of a usage: its words, one a line, as they are in the folder of the
    examples, and what it prints, if that stands below."""
    _, found, text = read_file(str(root / f"bin/usage/{tool.name}")).partition(EXAMPLE)
    command, *output = (line[len(INDENT) :] for line in text.splitlines() or [""])
    words = command.split()
    if not found or words[:1] != [f"bin/{tool.name}"]:
        raise Fault(f"bin/usage/{tool.name}: does not end with an example")
    place = f"examples/{tool.example}"
    texts = {
        f"{place}.words": "".join(
            f"{word.removeprefix('examples/')}\n" for word in (tool.name, *words[1:])
        )
    }
    if output:
        texts[f"{place}.expected"] = "".join(f"{line}\n" for line in output)
    return texts


# ---- all of it


def laid_out(name: str, lines: list[str]) -> list[str]:
    """The lines of a region. Below a definition stands an empty line, below a list of uses or of
    modules none."""
    is_list = lines[-1:] != [] and lines[-1].startswith(("use ", "pub mod "))
    return lines if Path(name).suffix != ".antt" or is_list else [*lines, ""]


def made_texts(root: Path = ROOT) -> dict[str, str]:
    """Each file as it is to be."""
    tools = read_tools(read_file(str(root / TABLE)))
    texts: dict[str, str] = {}

    def change(name: str, changed: Callable[[str], str]) -> None:
        texts[name] = changed(texts[name] if name in texts else read_file(str(root / name)))

    for name, parts in REGIONS.items():
        for part, lines in parts.items():
            change(
                name,
                lambda text: with_region(name, text, MAKER, laid_out(name, lines(tools)), part),
            )
    for name, lines in (
        ("checks/running.py", checked_lines(tools)), ("examples/titles", titles(tools)),
        ("docs/FORMATS.md", words_rows(tools, root)),
    ):
        change(name, lambda text: with_region(name, text, MAKER, lines))
    for name, (head, rows) in LISTS.items():
        change(name, lambda text: with_list(name, text, head, rows(tools)))
    for name, fronts in NAMES.items():
        for front in fronts:
            change(name, lambda text: with_names(name, text, front, tools))
    for tool in tools:
        texts[f"bin/{tool.name}"] = SCRIPT.format(name=tool.name)
        texts.update(example_texts(tool, root))
    return texts
