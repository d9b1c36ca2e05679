"""What tool_words has of all tools, as lines."""

from __future__ import annotations

from typing import Callable

from parts.tool_table import Tool, camel

Lines = Callable[[list[Tool]], list[str]]
CRATE = "crates/tool_words"
VARIANTS = "use Rattle.tool_words.specs.declared.command.Command.TheVariants"


def named_variants(tools: list[Tool]) -> str:
    return f"{VARIANTS}.{{{', '.join(tool.variant for tool in tools)}}}"


def modules_of_words(tools: list[Tool]) -> list[str]:
    words = sorted(tool.words for tool in tools)
    return [
        *(f"pub mod {name};" for name in words), "",
        *(f"pub use {name}::{camel(name)}Words;" for name in words),
    ]


def rows_of_words(tools: list[Tool]) -> list[str]:
    return [
        f'        "{tool.name}" => Ok(Command::{tool.variant}(read_tool(alloc, words)?)),'
        for tool in tools
    ]


def types_of_words(tools: list[Tool]) -> list[str]:
    return [
        f"use crate::{tool.words}::{tool.type};"
        for tool in sorted(tools, key=lambda tool: tool.words)
    ]


def variants(tools: list[Tool]) -> list[str]:
    return [
        line for tool in tools
        for line in (f"    /// `{tool.name}`: {tool.does}.", f"    {tool.variant}({tool.type}),")
    ]


def forms(tools: list[Tool]) -> list[str]:
    return [f"pub mod {camel(tool.words)}Form" for tool in tools]


def uses_of_forms(tools: list[Tool]) -> list[str]:
    return [
        named_variants(tools),
        *(
            f"use Rattle.tool_words.specs.{camel(tool.words)}Form.{{{tool.words}_form}}"
            for tool in tools
        ),
    ]


def rows_of_forms(tools: list[Tool]) -> list[str]:
    rows = [f'tool (codes "{tool.name}") {tool.variant} {tool.words}_form' for tool in tools]
    return [
        "-- the tools, a row each", "abbrev pub tools : List Tool", "tools =", f"    {rows[0]}",
        *(f"    ∷ {row}" for row in rows[1:]), "    ∷ []",
    ]


# The files, and what stands there between the marks with a word.
REGIONS: dict[str, dict[str, Lines]] = {
    f"{CRATE}/src/lib.rt": {"modules": modules_of_words, "rows": rows_of_words},
    f"{CRATE}/src/command.rt": {"words": types_of_words, "variants": variants},
    f"{CRATE}/specs/Lib.antt": {"forms": forms},
    f"{CRATE}/specs/Form.antt": {"uses": uses_of_forms, "rows": rows_of_forms},
}
