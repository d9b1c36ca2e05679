"""The table of calls (crates/call_type/calls.csv), and what other files have of it: lines between
marks, and a paragraph of a usage text."""

from __future__ import annotations

import csv
import re
from dataclasses import dataclass
from pathlib import Path
from typing import Callable

from parts.command import Fault, read_file
from parts.regions import filled, with_region
from parts.usage import ROOT

MAKER = "tools/make_calls"
TABLE = "crates/call_type/calls.csv"
WIDTH = 100  # of a line of Rattle
WORD = re.compile(r"[a-z]+")
VARIANT = re.compile(r"(?:[A-Z][a-z]+)+")
FUNCTIONS = re.compile(r"(?:PAPI_[a-z_]+(?: PAPI_[a-z_]+)*)?")
SENTENCE = re.compile(r"[^\n|]+")
CODE = re.compile(r"\bE[A-Z]{3,}\b")


@dataclass(frozen=True)
class Argument:
    """What a call takes: the field of its variant, and what FORMATS says of its numbers."""

    field: str
    note: str = ""


ARGUMENTS = {
    "SET": Argument("set"),
    "EVENT": Argument("e"),
    "COMPONENT": Argument("comp"),
    "BITS": Argument("bits", "1 user, 2 kernel"),
    "SLICE": Argument("slice", "ticks"),
    "THRESHOLD": Argument("t", "below 2^64"),
    "COUNTER": Argument("c"),
    "N": Argument("n"),
    "CODE": Argument("code", "`0x` and 1 to 8 hexadecimal digits"),
}
TYPES = {"EVENT": "E", "THRESHOLD": "u64"}  # any other one is a number of 32 bits
# The form of the arguments by their kinds, and the function of script_lines that reads it.
FORMS = {
    "": ("Nothing", "nothing"),
    "number": ("Number", "one_number"),
    "number number": ("TwoNumbers", "two_numbers"),
    "number event": ("SetAndEvent", "set_and_event"),
    "number event threshold": ("SetEventAndThreshold", "set_event_and_threshold"),
    "event": ("Event", "one_event"),
    "code": ("Code", "one_code"),
}
QUESTIONS = ("Threads", "CodeOf", "NameOf")  # what a line may ask for that is no call on a session
# What the function of thread_core gives, beside the variants of Body: a code, an answer or a
# refusal, values that it writes, and nothing for a run.
CODE_ALONE, REFUSAL, VALUES, RUN = "code", "refusal", "values", "Ran"


@dataclass(frozen=True)
class Call:
    """A line of the table."""

    word: str
    arguments: tuple[str, ...]
    variant: str
    gives: str
    papi: tuple[str, ...]
    usage: str
    replies: str
    refusals: str

    @property
    def name(self) -> str:
        return self.word.capitalize()

    @property
    def method(self) -> str:
        return re.sub(r"(?<!^)([A-Z])", r"_\1", self.variant).lower()

    @property
    def fields(self) -> list[str]:
        return [ARGUMENTS[argument].field for argument in self.arguments]

    @property
    def takes_event(self) -> bool:
        return "EVENT" in self.arguments

    @property
    def is_question(self) -> bool:
        return self.variant in QUESTIONS

    @property
    def form(self) -> tuple[str, str]:
        kinds = {"EVENT": "event", "THRESHOLD": "threshold", "CODE": "code"}
        return FORMS[" ".join(kinds.get(argument, "number") for argument in self.arguments)]

    def held(self, fields: list[str] | None = None) -> str:
        """The variant with its fields, as Rust writes it."""
        inner = ", ".join(self.fields if fields is None else fields)
        return f"Call::{self.variant} {{ {inner} }}" if inner else f"Call::{self.variant}"

    def applied(self, *, module: str = "call", event: str = "e") -> str:
        """The variant with its fields, as definitions write it."""
        inner = [event if field == "e" else field for field in self.fields]
        text = " ".join((f"{module}.{self.variant}", *inner))
        return f"({text})" if inner else text


def _fault_of(call: Call, above: list[Call]) -> str:
    """Which field of a line is bad, if one is."""
    for what, good in (
        ("word", WORD.fullmatch(call.word) and all(call.word != other.word for other in above)),
        (
            "arguments",
            all(argument in ARGUMENTS for argument in call.arguments) and _has_form(call),
        ),
        (
            "variant",
            VARIANT.fullmatch(call.variant)
            and all(call.variant != other.variant for other in above),
        ),
        ("gives", call.gives in (CODE_ALONE, REFUSAL, VALUES) or VARIANT.fullmatch(call.gives)),
        ("papi", FUNCTIONS.fullmatch(" ".join(call.papi))),
        ("usage", SENTENCE.fullmatch(call.usage)),
        (
            "replies",
            bool(call.replies) == (call.gives not in (CODE_ALONE, REFUSAL))
            and "|" not in call.replies,
        ),
        ("refusals", SENTENCE.fullmatch(call.refusals)),
    ):
        if not good:
            return what
    return ""


def _has_form(call: Call) -> bool:
    try:
        return bool(call.form)
    except KeyError:
        return False


def read_calls(text: str) -> list[Call]:
    """The lines of the table below its head."""
    calls: list[Call] = []
    for number, fields in enumerate(csv.reader(text.splitlines()), 1):
        if number == 1:
            continue
        if len(fields) != 8:
            raise Fault(f"{TABLE}: line {number}: not eight fields")
        word, arguments, variant, gives, papi, usage, replies, refusals = fields
        call = Call(
            word, tuple(arguments.split()), variant, gives, tuple(papi.split()), usage, replies,
            refusals,
        )
        if fault := _fault_of(call, calls):
            raise Fault(f"{TABLE}: line {number}: bad {fault}")
        calls.append(call)
    if not calls:
        raise Fault(f"{TABLE}: no call")
    return calls


def _on_session(calls: list[Call]) -> list[Call]:
    return [call for call in calls if not call.is_question]


def name_lines(calls: list[Call]) -> list[str]:
    return [f"    {call.name}," for call in calls]


def word_lines(calls: list[Call]) -> list[str]:
    return [f'        CallName::{call.name} => "{call.word}",' for call in calls]


def word_clauses(calls: list[Call]) -> list[str]:
    return [f'word_of name.{call.name} = codes "{call.word}"' for call in calls] + [""]


def variant_lines(calls: list[Call]) -> list[str]:
    typed = [
        [
            f"{ARGUMENTS[argument].field}: {TYPES.get(argument, 'u32')}"
            for argument in call.arguments
        ]
        for call in calls
    ]
    return [
        f"    {call.held(fields).removeprefix('Call::')}," for call, fields in zip(calls, typed)
        if not call.is_question
    ]


def named_lines(calls: list[Call]) -> list[str]:
    dots = {True: " { .. }", False: ""}
    return [
        f"            Call::{call.variant}{dots[bool(call.arguments)]} => CallName::{call.name},"
        for call in _on_session(calls)
    ]


def name_clauses(calls: list[Call]) -> list[str]:
    return [f"name_of_call {call.applied()} = name.{call.name}" for call in _on_session(calls)] + [
        ""
    ]


def event_clauses(calls: list[Call]) -> list[str]:
    return [
        f"call_with f {call.applied()} = {_bare(call.applied(event='(f e)'))}"
        for call in _on_session(calls)
    ] + [""]


def _bare(text: str) -> str:
    """The text without the parentheses around it."""
    return text[1:-1] if text.startswith("(") else text


def form_clauses(calls: list[Call]) -> list[str]:
    rows = []
    for call in calls:
        made = call.applied() if not call.is_question else call.applied(module="asked")
        whole = f"asked.Call {made}" if not call.is_question else _bare(made)
        whole = (
            f"(λ {' '.join(call.fields)}. {whole})" if call.arguments
            else (f"({whole})" if " " in whole else whole)
        )
        rows.append(f"row name.{call.name} ({call.form[0]} {whole})")
    return [f"    {rows[0]}", *[f"    ∷ {row}" for row in rows[1:]], "    ∷ []"]


def all_names(calls: list[Call]) -> list[str]:
    """A list of all names."""
    return [
        f"const NAMES: [CallName; {len(calls)}] = [",
        *(f"    CallName::{call.name}," for call in calls), "];",
    ]


def eventless_lines(calls: list[Call]) -> list[str]:
    """The arms of a match over names, each of which reads arguments without an event."""
    return [line for call in calls if not call.takes_event for line in _eventless_arm(call)]


def _eventless_arm(call: Call) -> list[str]:
    made = f"Asked::{call.variant}" if call.is_question else f"Asked::Call({call.held()})"
    if call.is_question and call.fields:
        made += f"({call.fields[0]})"
    fields = f"({', '.join(call.fields)})" if len(call.fields) > 1 else "".join(call.fields)
    read = f"{call.form[1]}(arguments).map(|{fields or '_none'}| "
    line = f"        CallName::{call.name} => {read}{made}),"
    if len(call.fields) < 2 and len(line) <= WIDTH:
        return [line]
    inner = [f"            {read}{made})"]
    if len(inner[0]) > WIDTH:
        inner = [
            f"            {read}Asked::Call(Call::{call.variant} {{",
            *(f"                {field}," for field in call.fields), "            }))",
        ]
    return [f"        CallName::{call.name} => {{", *inner, "        }"]


def event_arms(calls: list[Call]) -> list[str]:
    """The arms of a match over names, each of which reads arguments with an event."""
    return [line for call in calls if call.takes_event for line in _event_arm(call)]


def _event_arm(call: Call) -> list[str]:
    fields = [field if field != "e" else "event" for field in call.fields]
    copied = f"let event = Text::copy_of(alloc, {call.form[1]}(arguments)?)?;"
    read = (
        [
            f"let ({', '.join(fields)}) = {call.form[1]}(arguments)?;",
            "let e = Text::copy_of(alloc, event)?;",
        ]
        if len(fields) > 1
        else [copied]
    )
    made = (
        f"Ok(Asked::{call.variant}(event))" if call.is_question
        else f"Ok(Asked::Call({call.held()}))"
    )
    return [
        f"        CallName::{call.name} => {{", *(f"            {line}" for line in (*read, made)),
        "        }",
    ]


def event_lines(calls: list[Call]) -> list[str]:
    """The arms of a match over calls, each of which looks its event up."""
    lines = []
    for call in _on_session(calls):
        if call.takes_event:
            taken = call.held([field if field != "e" else "ref e" for field in call.fields])
            lines += [
                f"        call_type::{taken} => {{",
                "            let e = catalog.lookup(e.as_str());",
                f"            {call.held()}",
                "        }",
            ]
        else:
            lines.append(f"        call_type::{call.held()} => {call.held()},")
    return lines


def answer_lines(calls: list[Call]) -> list[str]:
    """The arms of a match over calls, each of which the core makes."""
    return [
        f"        {call.held()} => {_answer(call)}," if call.gives != RUN
        else f"        Call::{call.variant} {{ .. }} => unreachable!(),"
        for call in _on_session(calls)
    ]


def _answer(call: Call) -> str:
    """What the core makes of a call, as a reply."""
    given = [
        "book",
        *(
            f"*{field}" if argument != "EVENT" else field
            for field, argument in zip(call.fields, call.arguments)
        ),
    ]
    if call.gives == VALUES:
        return f"{call.method}(core, {', '.join(given)})"
    made = f"core.{call.method}({', '.join(given)})"
    if call.gives == CODE_ALONE:
        return f"plain({made})"
    return (
        f"changed_reply({made})" if call.gives == REFUSAL
        else f"reply({made}.map(Body::{call.gives}))"
    )


def usage_lines(calls: list[Call]) -> list[str]:
    """A line for each call, with PAPI's functions of it."""
    return [
        f"  {' '.join((call.word, *call.arguments)):<31} {call.usage}{_functions(call)}"
        for call in calls
    ]


def _functions(call: Call) -> str:
    return f" ({', '.join(call.papi)})" if call.papi else ""


def argument_lines(calls: list[Call]) -> list[str]:
    """A dictionary of what each call takes."""
    pairs = [f'"{call.word}":~{_tuple(call.arguments)},' for call in calls]
    return [
        "CALLS: dict[str, tuple[str, ...]] = {",
        *[line.replace("~", " ") for line in filled(pairs, 100)], "}",
    ]


def _tuple(words: tuple[str, ...]) -> str:
    inner = ",~".join(f'"{word}"' for word in words)
    return f"({inner},)" if len(words) == 1 else f"({inner})"


def rule_lines(calls: list[Call]) -> list[str]:
    """A dictionary of the refusals of each call. A long text is several, one after another."""
    lines = []
    for call in calls:
        parts = filled([f'    "{call.word}": "{call.refusals}",'], 93, "")
        lines += [f'{part} "' for part in parts[:-1]] + parts[-1:]
    return ["RULES = {", *(line if line.startswith(" ") else f'    "{line}' for line in lines), "}"]


def call_rows(calls: list[Call]) -> list[str]:
    """A table of the calls for people: what each takes, and what the reply has."""
    return [
        "| Call | Arguments | After `PAPI_OK` the reply has |", "|---|---|---|",
        *(f"| `{call.word}` |{_cell(_taken(call))}|{_cell(call.replies)}|" for call in calls),
    ]


def _cell(text: str) -> str:
    return f" {text} " if text else " "


def _taken(call: Call) -> str:
    return " ".join(
        f"{argument} ({ARGUMENTS[argument].note})" if ARGUMENTS[argument].note else argument
        for argument in call.arguments
    )


def refusal_rows(calls: list[Call]) -> list[str]:
    """A table of their refusals. Calls with the same ones share a line."""
    words: dict[str, list[str]] = {}
    for call in calls:
        words.setdefault(call.refusals, []).append(f"`{call.word}`")
    return [
        "| Call | Refusals in order |",
        "|---|---|",
        *(
            f"| {', '.join(names)} | {CODE.sub(lambda code: f'`{code[0]}`', refusals)} |"
            for refusals, names in words.items()
        ),
    ]


# The files, the names of their regions, and what stands there.
REGIONS: dict[str, dict[str, Callable[[list[Call]], list[str]]]] = {
    "crates/call_type/src/call_name.rt": {"names": name_lines, "words": word_lines},
    "crates/call_type/specs/CallNames.antt": {"": word_clauses},
    "crates/call_type/src/call.rt": {"variants": variant_lines, "names": named_lines},
    "crates/call_type/specs/Calls.antt": {"names": name_clauses, "events": event_clauses},
    "crates/script_lines/specs/Calls.antt": {"": form_clauses},
    "crates/script_lines/src/asked.rt": {
        "names": all_names,
        "arms": eventless_lines,
        "events": event_arms,
    },
    "crates/script_runner/src/asking.rt": {"": event_lines},
    "crates/thread_session/src/answers.rt": {"": answer_lines},
    "bin/hints/formats/scripts.py": {"": argument_lines},
    "bin/hints/formats/refusals.py": {"": rule_lines},
    "docs/FORMATS.md": {"calls": call_rows, "refusals": refusal_rows},
}
USAGE, ABOVE_CALLS = "bin/usage/papi_run", "Beside each call stands PAPI's:"


def with_usage(name: str, text: str, lines: list[str]) -> str:
    """A usage text with these lines of calls: a paragraph below its line that says so."""
    paragraphs = text.split("\n\n")
    above = [
        place for place, paragraph in enumerate(paragraphs[:-1]) if paragraph.endswith(ABOVE_CALLS)
    ]
    if len(above) != 1:
        raise Fault(f"{name}: not one line that ends: {ABOVE_CALLS}")
    paragraphs[above[0] + 1] = "\n".join(lines)
    return "\n\n".join(paragraphs)


MADE = (*REGIONS, USAGE)


def made_texts(root: Path = ROOT) -> dict[str, str]:
    """Each file as it is to be."""
    calls = read_calls(read_file(str(root / TABLE)))
    texts = {name: read_file(str(root / name)) for name in MADE}
    for name, parts in REGIONS.items():
        for part, lines in parts.items():
            texts[name] = with_region(name, texts[name], MAKER, lines(calls), part)
    texts[USAGE] = with_usage(USAGE, texts[USAGE], usage_lines(calls))
    return texts
