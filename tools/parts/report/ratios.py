"""Instructions per cycle, and misses per 1,000 instructions, of the sets that counted what they are
made of."""

from __future__ import annotations

import re
from typing import Iterable, Sequence

from parts.report.markup import Markup, element
from parts.report.numbers import shown
from parts.report.summary import TONES, Total, table_of

INSTRUCTIONS = re.compile(
    r"PAPI_TOT_INS|(?:.*::)?(?:INSTRUCTIONS|INSTRUCTIONS_RETIRED|INST_RETIRED(?::ANY\w*)?)"
)
CYCLES = re.compile(r"PAPI_TOT_CYC|(?:.*::)?(?:CYCLES|CPU_CLK_UNHALTED(?::THREAD\w*)?)")
MISSES = re.compile(
    r"PAPI_(?:.*_(?:DCM|ICM|TCM|LDM|STM)|TLB_.*|BR_MSP)|.*(?:MISS|BRANCH_ERRED|MISP).*"
)
MOST_RATIOS = 400


def draw_ratios(totals: Sequence[Total]) -> list[Markup]:
    rows = list(_rows(totals))[:MOST_RATIOS]
    return (
        [element("h3", "Ratios"), table_of(("thread", "set", "ratio", "of", "value"), rows)] if rows
        else []
    )


def _rows(totals: Sequence[Total]) -> Iterable[Markup]:
    for span in {id(total.span): total.span for total in totals}.values():
        own = [total for total in totals if total.span is span]
        instructions = next((total for total in own if INSTRUCTIONS.fullmatch(total.event)), None)
        if instructions is None:
            continue
        cycles = next((total for total in own if CYCLES.fullmatch(total.event)), None)
        if cycles is not None and cycles.best > 0:
            yield _row(instructions, cycles, "instructions per cycle", 1)
        if instructions.best > 0:
            for total in own:
                if MISSES.fullmatch(total.event):
                    yield _row(total, instructions, f"{total.event} per 1,000 instructions", 1000)


def _row(part: Total, whole: Total, name: str, scale: int) -> Markup:
    span = part.span
    is_estimate = part.is_estimate and (part.exact is None or whole.exact is None)
    return element(
        "tr",
        element(
            "td", element("span", span.thread, class_=f"chip tone{span.thread % TONES}"),
            data_label="thread",
        ),
        element("td", span.set, data_label="set"),
        element("td", element("code", name), class_="main"),
        element(
            "td", f"{shown(part.best)} / {shown(whole.best)}", class_="number quiet",
            data_label="of",
        ),
        element(
            "td", element("b", f"{scale * part.best / whole.best:.2f}"),
            element("span", "estimate", class_="badge") if is_estimate else None, class_="number",
            data_label="value",
        ),
        data_thread=span.thread,
        data_set=f"{span.thread}.{span.set}",
    )
