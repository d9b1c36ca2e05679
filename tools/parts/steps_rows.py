"""What papi_tools has of all tools, as lines."""

from __future__ import annotations

import textwrap

from parts.tool_table import Tool, camel
from parts.words_rows import Lines, named_variants

CRATE = "crates/papi_tools"
WIDTH = 100  # of a line of code
MOST_NAME = 18  # characters of a name beside which a clause fits on a line


def modules_of_steps(tools: list[Tool]) -> list[str]:
    return [f"mod {name};" for name in sorted(tool.module for tool in tools)]


def public_names(tools: list[Tool]) -> list[str]:
    names = ", ".join(sorted(tool.public for tool in tools))
    return [
        "pub use tool::{",
        *textwrap.wrap(f"{names},", WIDTH, initial_indent="    ", subsequent_indent="    "), "};",
    ]


def uses_of_steps(tools: list[Tool]) -> list[str]:
    return [f"use crate::{steps};" for steps in sorted(tool.steps for tool in tools)]


def rows_of_steps(tools: list[Tool]) -> list[str]:
    calls = {
        "text": "{function}(alloc, files, words)",
        "telling": "{function}(rt, alloc, files, words, handlers)",
        "quiet": "{function}(rt, alloc, files, words)",
        "own": "{function}(rt, alloc, words, handlers)",
    }
    return [f"        Command::{tool.variant}(words) => "
            f"{calls[tool.kind].format(function=tool.function)}," for tool in tools]


SIGNATURE = """
/// `{name}` over the words after its name, as `papi_main` does it.
pub fn {public}<R: Threads + Sync, F: Files, K: Sink>(
    rt: &R,
    alloc: Global,
    words: &[String],
    files: &mut F,
    out: &mut K,
    err: &mut K,"""
QUIET = SIGNATURE + """
) -> Status
    ensures {{ CarriesOutBy F.held F.misses F.faults F.lent K.taken K.faults result
        (codes "{name}") words.now files.old files.new out.old out.new err.old{gap}err.new }}
{{
    quiet_tool(rt, alloc, "{name}", words, files, out, err)
}}
"""
TELLING = SIGNATURE + """
    handlers: &mut Vec<Box<dyn Handler + Send>>,
) -> Status
    requires handlers {{ vec_len handlers.old ≡ THREADS }}
    ensures len {{ vec_len handlers.new ≡ THREADS }}
    ensures carries_out {{ CarriesOutAndTellsBy F.held F.misses F.faults F.lent K.taken K.faults
        result (codes "{name}") words.now files.old files.new out.old out.new err.old err.new
        (map (λ b. notes b) handlers.old.items) (map (λ b. notes b) handlers.new.items) }}
{{
    telling_tool(rt, alloc, "{name}", words, files, out, err, handlers)
}}
"""


def public_functions(tools: list[Tool]) -> list[str]:
    """One for each tool, but for those over no files."""
    forms = {"text": QUIET, "quiet": QUIET, "telling": TELLING, "own": ""}
    texts = [
        forms[tool.kind].format(
            name=tool.name, public=tool.public,
            gap=" " if len(tool.name) <= MOST_NAME else "\n        ",
        )
        for tool in tools
    ]
    return "".join(texts).strip("\n").split("\n")


def modules_of_verdicts(tools: list[Tool]) -> list[str]:
    return [f"pub mod {name}" for name in sorted(camel(tool.module) for tool in tools)]


def uses_of_verdicts(tools: list[Tool]) -> list[str]:
    return [named_variants(tools), *_verdicts(tools)]


def _verdicts(tools: list[Tool]) -> list[str]:
    return [
        f"use Rattle.papi_tools.specs.{camel(tool.module)}.{{{tool.words}_verdict}}"
        for tool in sorted(tools, key=lambda tool: camel(tool.module))
    ]


def rows_of_verdicts(tools: list[Tool]) -> list[str]:
    calls = {
        "text": "quiet ({words}_verdict openings words)",
        "telling": "{words}_verdict openings words",
        "quiet": "quiet ({words}_verdict openings words)",
        "own": "{words}_verdict words",
    }
    return [
        "-- what a command comes to: a row for each tool",
        "abbrev pub command_verdict : Openings → Command → Result Verdict Refusal",
        *(f"command_verdict openings ({tool.variant} words) = "
          f"{calls[tool.kind].format(words=tool.words)}" for tool in tools),
    ]


def uses_of_noes(tools: list[Tool]) -> list[str]:
    return [named_variants([tool for tool in tools if tool.says_no])]


def rows_of_noes(tools: list[Tool]) -> list[str]:
    may = {"event": "IsSome words.event", "any": "Unit {0}"}
    return [
        (
            "-- the tools that may say no: to the name of an event, to names, or to events that do "
            "not go together"
        ),
        "abbrev pub SaysNo : Option Command → Type 0",
        *(
            f"SaysNo (Some ({tool.variant} words)) = {may[tool.says_no]}" for tool in tools
            if tool.says_no
        ),
        *(["SaysNo _ = ⊥"] if any(not tool.says_no for tool in tools) else ["SaysNo None = ⊥"]),
    ]


# ---- their proofs


def rows_of_proofs(tools: list[Tool]) -> list[str]:
    """The answer of each tool is its verdict's."""
    proofs = {
        "text": (
            "(quiet_tells _ _ _ c.{function}.result (λ o. {words}_verdict o _) _ _ "
            "c.{function}.ensures.said (text_shows _ c.{function}.result _ _ "
            "c.{function}.ensures.textual))"
        ),
        "telling": "c.{function}.ensures.tells",
        "quiet": (
            "(quiet_tells _ _ _ c.{function}.result (λ o. {words}_verdict o _) _ _ "
            "c.{function}.ensures.said c.{function}.ensures.shows)"
        ),
        "own": "(c.{function}.ensures.tells _ _ _)",
    }
    lines: list[str] = []
    for tool in tools:
        goal = f"returns-in-{tool.variant}-clause-tells"
        proof = proofs[tool.kind].format(function=tool.function, words=tool.words)
        lines += [
            f"pub {goal} : goal.{goal}", f"{goal} g c = rw c.in-{tool.variant}.is {proof}", "",
        ]
    return lines[:-1]


def uses_of_proofs(tools: list[Tool]) -> list[str]:
    return _verdicts([tool for tool in tools if tool.kind in ("text", "quiet")])


def rows_of_own_statuses(tools: list[Tool]) -> list[str]:
    proofs = {
        "text": "of_quiet ({words}_verdict openings words) (of_{words} openings words)",
        "telling": "of_{words} openings words",
        "quiet": "of_quiet ({words}_verdict openings words) (of_{words} openings words)",
        "own": "of_{words} words",
    }
    return [
        (
            "of_command : (openings : Openings) (command : Option Command) → IfOk (verdict_for "
            "openings command) Comes"
        ),
        "of_command openings None = tt",
        *(f"of_command openings (Some ({tool.variant} words)) = "
          f"{proofs[tool.kind].format(words=tool.words)}" for tool in tools),
    ]


# The files, and what stands there between the marks with a word.
REGIONS: dict[str, dict[str, Lines]] = {
    f"{CRATE}/src/lib.rt": {"modules": modules_of_steps, "functions": public_names},
    f"{CRATE}/src/top.rt": {"uses": uses_of_steps, "rows": rows_of_steps},
    f"{CRATE}/src/tool.rt": {"functions": public_functions},
    f"{CRATE}/specs/Lib.antt": {"verdicts": modules_of_verdicts},
    f"{CRATE}/specs/Verdict.antt": {"uses": uses_of_verdicts, "rows": rows_of_verdicts},
    f"{CRATE}/specs/Looking.antt": {"uses": uses_of_noes, "rows": rows_of_noes},
    f"{CRATE}/proofs/top/carried_out/Answers.antt": {
        "uses": uses_of_proofs,
        "rows": rows_of_proofs,
    },
    f"{CRATE}/proofs/OwnStatusLemmas.antt": {
        "uses": uses_of_verdicts,
        "rows": rows_of_own_statuses,
    },
}
