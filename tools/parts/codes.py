"""Which codes the lines of a recording have, by the unit whose events are to count it
(docs/RECORDING.md, Codes)."""

from __future__ import annotations

import sys
from dataclasses import dataclass
from pathlib import Path
from typing import Iterable, Iterator

from parts.command import Fault, own_name, read_file
from parts.processors import Code, tables

RECORDED_UNIT = Path(__file__).resolve().parent.parent.parent / "examples/recorded.unit"


@dataclass(frozen=True)
class Native:
    """An event of a unit with one of its umasks, or without one."""

    event: str
    umask: str
    code: Code

    def name(self) -> str:
        return f"{self.event}:{self.umask}" if self.umask else self.event


@dataclass(frozen=True)
class Codes:
    """The codes of a unit's lines: those of its table of quantities, or those of
    examples/recorded.unit, which the tool of Valgrind knows itself."""

    pmu: str
    lines: tuple[tuple[str, tuple[Code, ...]], ...] = ()
    # events of the unit that the table has no row for, and no line a code
    rowless: tuple[str, ...] = ()

    def text(self) -> str:
        """As the tool of Valgrind reads them. Empty for those that it knows."""
        return ",".join(
            f"{quantity}:" + "+".join(f"{select:02x}{mask:02x}" for select, mask in codes)
            for quantity, codes in self.lines
        )

    def tool_words(self) -> list[str]:
        return [f"--codes={self.text()}"] if self.lines else []

    def variable(self) -> str:
        """As the library for C reads them in KISTALUB_CODES."""
        return f"{self.pmu} {self.text()}"


RECORDED = Codes("recorded")


def _rows(text: str) -> Iterator[list[str]]:
    for row in text.removeprefix("\ufeff").split("\n"):
        fields = [field.strip(" \t\r") for field in row.split(",")]
        if not row.startswith("#") and fields[0] and not fields[0].startswith("#"):
            yield fields


def _first_component(text: str) -> tuple[str, list[Native]]:
    """Its pmu and its events, as far as the rows are right: whoever reads the unit says what is
    wrong with it."""
    pmu, natives = "", []
    event, select = "", 0
    for kind, *fields in _rows(text):
        try:
            if kind == "COMPONENT":
                if pmu:
                    break
                pmu = fields[1]
            elif kind == "EVENT":
                event, select = fields[0], int(fields[1], 16)
                natives.append(Native(event, "", (select, 0)))
            elif kind == "UMASK":
                if natives and natives[-1].umask == "" and natives[-1].event == event:
                    natives.pop()
                natives.append(Native(event, fields[0], (select, int(fields[1], 16))))
        except (IndexError, ValueError):
            continue
    return pmu, natives


def codes_of(unit: str) -> Codes:
    """The codes for a unit file. A fault if an event of it would count what another one does, or
    has a code of the processor itself."""
    pmu, natives = _first_component(read_file(unit))
    table = tables().get(pmu.lower())
    if table is None:
        return _recorded_codes(unit, pmu, natives)
    lines = tuple((quantity, tuple(codes)) for quantity, codes in table.lines().items())
    taken = {select for _, codes in lines for select, _ in codes}
    rowless: list[str] = []
    for native in natives:
        code = table.code(native.event, native.umask)
        if code is None and native.code[0] in taken:
            raise Fault(
                f"{unit}: {native.name()} has no row in the table of {pmu}, and its code is that "
                f"of other events: {_advice(pmu)}"
            )
        if code is None:
            rowless.append(native.name())
        elif code != native.code:
            raise Fault(
                f"{unit}: {native.name()} has a code of the processor itself: {_advice(pmu)}"
            )
    return Codes(pmu, lines, tuple(rowless))


def name_rowless(unit: str, is_strict: bool) -> None:
    """A line on standard error that names the events of a unit for which the processor's table has
    no row, so that they count nothing; a fault with --strict."""
    codes = codes_of(unit)
    if not codes.rowless:
        return
    text = f"{unit}: nothing that is counted here is counted by {', '.join(codes.rowless)}"
    if is_strict:
        raise Fault(f"{text}: {_advice(codes.pmu)}")
    print(f"{own_name()}: {text}", file=sys.stderr)


def _advice(pmu: str) -> str:
    return f"tools/make_unit {pmu} --counted makes the unit that is counted over"


def _recorded_codes(unit: str, pmu: str, natives: Iterable[Native]) -> Codes:
    """Those of examples/recorded.unit, if the unit has no others."""
    bits: dict[int, int] = {}
    for native in _first_component(RECORDED_UNIT.read_text(encoding="utf-8"))[1]:
        select, mask = native.code
        bits[select] = bits.get(select, 0) | mask
    for native in natives:
        select, mask = native.code
        if select not in bits or mask & ~bits[select]:
            known = " ".join(sorted(tables()))
            raise Fault(f"{unit}: {native.name()} has a code that examples/recorded.unit has not, "
                        f"and there is no table of what is counted for the events of {pmu}; "
                        f"there are tables for {known}")
    return Codes(pmu)
