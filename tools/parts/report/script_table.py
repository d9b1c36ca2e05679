"""The script with each reply beside its call."""

from __future__ import annotations

from typing import Sequence

from formats.refusals import SENTENCES
from parts.command import counted
from parts.report.markup import Child, Markup, element
from parts.report.replies import Step

MOST_ROWS = 4000
TONES = 8
WITH_VALUES = ("read", "stop", "accum")


def draw_script(
    steps: Sequence[Step], names: dict[int, tuple[str, ...]], rules: dict[str, str]
) -> list[Markup]:
    head = element(
        "thead",
        element(
            "tr", [element("th", text, scope="col") for text in ("line", "thread", "call", "reply")]
        ),
    )
    rows = [
        _row(step, names.get(step.call.line, ()), step.call.name in rules)
        for step in steps[:MOST_ROWS]
    ]
    table = element(
        "div", element("table", head, element("tbody", rows), class_="script stack"), class_="wide"
    )
    left_out = len(steps) - MOST_ROWS
    return [table] + [
        element("p", f"Left out: {counted(left_out, 'call')} more.", class_="quiet")
    ] * (left_out > 0)


def _row(step: Step, names: tuple[str, ...], has_rule: bool) -> Markup:
    call = step.call
    number = step.set
    return element(
        "tr",
        element("td", call.line, class_="number", data_label="line"),
        element(
            "td", element("span", call.thread, class_=f"chip tone{call.thread % TONES}"),
            data_label="thread",
        ),
        element(
            "td",
            element(
                "code", element("b", call.name), *(f" {argument}" for argument in call.arguments)
            ),
            class_="main",
        ),
        element("td", _reply(step, names, has_rule), class_="main"),
        class_="refused" if step.code != "PAPI_OK" else None,
        data_thread=call.thread,
        data_set=f"{call.thread}.{number}" if number is not None else "",
        data_line=call.line,
        id=f"line-{call.line}",
    )


def _reply(step: Step, names: tuple[str, ...], has_rule: bool) -> list[Child]:
    made: list[Child] = [element("code", step.code, class_="code")]
    if step.call.name in WITH_VALUES and len(names) == len(step.results):
        made += [
            [" ", element("span", element("b", value), " ", element("small", name), class_="value")]
            for value, name in zip(step.results, names)
        ]
    elif step.results:
        made += [" ", element("code", " ".join(step.results))]
    if step.code in SENTENCES and step.code != "PAPI_OK":
        rule = (
            element("a", "rule", href=f"#rule-{step.call.name}") if has_rule and step.is_refused
            else None
        )
        picture = (
            element("a", "picture", href=f"#conflict-{step.call.line}")
            if step.code == "PAPI_ECNFLCT" else None
        )
        made.append(
            element(
                "div", f"{SENTENCES[step.code]}. ", rule, " \u00b7 " if rule and picture else None,
                picture, class_="why",
            )
        )
    return made
