"""What the source of Linux says of a processor's events: perf's event files, and the tables of
`arch/x86/events`, by which Linux chooses counters.

The macros of the tables are those of `arch/x86/events/perf_event.h`. An event goes by the first row
that matches its code. Beside the counters of a code, the tables say which events need one of a
core's few further registers, which ones a thread of a core has for itself alone (an erratum), and
which take two counters.
"""

from __future__ import annotations

import re
from dataclasses import dataclass
from pathlib import Path

from parts.command import Fault, read_file
from parts.perf_events import Code, Places
from parts.unit_file import Fixed

EVENT_FILES = "tools/perf/pmu-events/arch/x86"
TABLES = "arch/x86/events/intel/core.c"
AMD_TABLES = "arch/x86/events/amd/core.c"
EVENT = 0xFF
EVENT_AND_UMASK = 0xFFFF
# with the edge, the inversion and the counter mask, which no fixed counter has
EVENT_AND_ALL = 0xFF84FFFF
# the fixed counter of reference cycles, and the one of slots, alone count what they count
REFERENCE = 2
SLOTS = 3
ROW = re.compile(r"^\s*([A-Z_]+)\(([^)]*)\)", re.MULTILINE)
PASSED_OVER = ("METRIC_EVENT_CONSTRAINT",)  # of metrics, which are no events of a counter
# the errata BJ122, BV98 and HSD29
EXCLUSIVE = ("INTEL_EXCLEVT_CONSTRAINT", "INTEL_EXCLUEVT_CONSTRAINT")
REGISTER_ROW = re.compile(r"^\s*INTEL_UEVENT_(PEBS_LDLAT_)?EXTRA_REG\((0x[0-9a-f]+)(?:, *\w+, "
                          r"*(0x[0-9a-f]+)u*l*, *(\w+))?\)", re.MULTILINE)
OFFCORE = ("RSP_0", "RSP_1")  # either register serves the events of both
PAIR_FUNCTION = re.compile(r"\bamd_is_pair_event_code\(.*?^\}", re.DOTALL | re.MULTILINE)
PAIR = re.compile(r"case (0x[0-9a-f]+):\s*return true;")


@dataclass(frozen=True)
class Processor:
    """Where the source of Linux has what it says of a PMU of libpfm4: the folder of perf's files,
    and the tables of counters and of registers if there are some. Linux 6.1 has no files of some
    processors."""

    folder: str | None
    table: str | None = None
    registers: str | None = None


def _intel(name: str, registers: str | None, *rows: tuple[str, str | None]) -> dict[str, Processor]:
    return {
        pmu: Processor(
            folder, f"intel_{name}_event_constraints", registers and f"intel_{registers}_extra_regs"
        )
        for pmu, folder in rows
    }


PROCESSORS: dict[str, Processor] = {
    **_intel("core2", None, ("core", None)), **_intel("gen", None, ("atom", "bonnell")),
    **_intel("slm", "slm", ("slm", "silvermont")), **_intel("slm", "glm", ("glm", "goldmont")),
    **_intel("slm", "tnt", ("tmt", "elkhartlake")),
    **_intel("slm", "knl", ("knl", "knightslanding"), ("knm", "knightslanding")),
    **_intel("nehalem", "nehalem", ("nhm", "nehalemep"), ("nhm_ex", "nehalemex")),
    **_intel("westmere", "westmere", ("wsm", "westmereep-sp"), ("wsm_dp", "westmereep-dp")),
    **_intel("snb", "snb", ("snb", "sandybridge")),
    **_intel("snb", "snbep", ("snb_ep", "jaketown")),
    **_intel("ivb", "snb", ("ivb", "ivybridge")), **_intel("ivb", "snbep", ("ivb_ep", "ivytown")),
    **_intel("hsw", "snbep", ("hsw", "haswell"), ("hsw_ep", "haswellx")),
    **_intel("bdw", "snbep", ("bdw", "broadwell"), ("bdw_ep", "broadwellx")),
    **_intel("skl", "skl", ("skl", "skylake"), ("skx", "skylakex"), ("clx", "cascadelakex")),
    **_intel("icl", "icl", ("icl", "icelake"), ("icx", "icelakex")),
    **_intel("spr", "spr", ("spr", "sapphirerapids")),
    "amd64_fam17h_zen1": Processor("amdzen1"),
    "amd64_fam17h_zen2": Processor("amdzen2"),
    "amd64_fam19h_zen3": Processor("amdzen3"),
    "amd64_fam19h_zen4": Processor(None),
}


@dataclass(frozen=True)
class Constraint:
    """The codes that match, from `code` to `code + size` under the mask, and their counters:
    programmable ones as bits, or a fixed one."""

    code: int
    size: int
    mask: int
    programmable: int
    fixed: int | None = None
    is_exclusive: bool = False

    def matches(self, code: int) -> bool:
        return 0 <= (code & self.mask) - self.code <= self.size


class ConstraintTable:
    def __init__(self, rows: list[Constraint]):
        self.rows = rows

    def places(self, code: Code, modifiers: Fixed, programmable: int) -> Places | None:
        """The counters of a code in a unit with so many programmable ones, and None if each of
        these may count it."""
        row = self._row(code, modifiers)
        everywhere = frozenset(range(programmable))
        if row is None:
            return None
        if row.fixed is None:
            return Places(
                frozenset(number for number in everywhere if row.programmable >> number & 1),
                frozenset(),
            )
        return Places(
            frozenset() if row.fixed in (REFERENCE, SLOTS) else everywhere, frozenset({row.fixed})
        )

    def is_exclusive(self, code: Code, modifiers: Fixed) -> bool:
        """Whether a core's other thread may not use the counter while one counts this code."""
        row = self._row(code, modifiers)
        return row is not None and row.is_exclusive

    def _row(self, code: Code, modifiers: Fixed) -> Constraint | None:
        whole = (
            code[0] | code[1] << 8 | modifiers.edge << 18 | modifiers.invert << 23
            | modifiers.amount << 24
        )
        return next((row for row in self.rows if row.matches(whole)), None)


@dataclass(frozen=True)
class Registers:
    """The codes of events of which each needs a register with a value of its own, how many such
    registers a core has, and the bits that Linux takes there by code."""

    codes: frozenset[int]
    count: int
    valid: tuple[tuple[int, int], ...] = ()

    def takes(self, code: int, value: int) -> bool:
        return all(of != code or not value & ~bits for of, bits in self.valid)


def _table(name: str, kind: str, table: str) -> str:
    """The rows of a table in a file of the kernel's source, without comments."""
    text = re.sub(r"/\*.*?\*/", "", read_file(name), flags=re.DOTALL)
    found = re.search(
        rf"struct {kind} {re.escape(table)}\[\][^=]*=\s*\{{(.*?)\n\}};", text, re.DOTALL
    )
    if not found:
        raise Fault(f"{name}: no table {table}")
    return found[1]


def read_registers(name: str, table: str) -> tuple[Registers, ...]:
    """The registers that events share, by a table of the kernel's source."""
    codes: dict[str, set[int]] = {}
    counts: dict[str, set[str]] = {}
    valid: dict[str, list[tuple[int, int]]] = {}
    for match in REGISTER_ROW.finditer(_table(name, "extra_reg", table)):
        register = "LDLAT" if match[1] else match[4]
        group = OFFCORE[0] if register in OFFCORE else register
        codes.setdefault(group, set()).add(int(match[2], 16))
        counts.setdefault(group, set()).add(register)
        valid.setdefault(group, []).extend(
            [(int(match[2], 16), int(match[3], 16))] if match[3] else []
        )
    if not codes:
        raise Fault(f"{name}: {table} has no row")
    return tuple(
        Registers(frozenset(codes[group]), len(counts[group]), tuple(valid[group]))
        for group in codes
    )


def read_pairs(name: str) -> frozenset[int]:
    """The select codes of AMD's events that take two counters each."""
    found = PAIR_FUNCTION.search(read_file(name))
    if not found:
        raise Fault(f"{name}: no amd_is_pair_event_code")
    return frozenset(int(code, 16) for code in PAIR.findall(found[0]))


def read_constraints(name: str, table: str) -> ConstraintTable:
    """The constraint table of this name in a file of the kernel's source."""
    rows = [
        _row(name, *match.groups())
        for match in ROW.finditer(_table(name, "event_constraint", table))
        if match[1] not in PASSED_OVER
    ]
    if not rows:
        raise Fault(f"{name}: {table} has no row")
    return ConstraintTable(rows)


def _row(name: str, macro: str, words: str) -> Constraint:
    try:
        numbers = [int(word.strip().rstrip("uUlL"), 0) for word in words.split(",")]
        if macro == "FIXED_EVENT_CONSTRAINT":
            code, fixed = numbers
            return Constraint(code, 0, EVENT_AND_ALL, 0, fixed)
        if macro in ("INTEL_EVENT_CONSTRAINT", "INTEL_EXCLEVT_CONSTRAINT"):
            code, counters = numbers
            return Constraint(code, 0, EVENT, counters, is_exclusive=macro in EXCLUSIVE)
        if macro in ("INTEL_UEVENT_CONSTRAINT", "INTEL_EXCLUEVT_CONSTRAINT"):
            code, counters = numbers
            return Constraint(code, 0, EVENT_AND_UMASK, counters, is_exclusive=macro in EXCLUSIVE)
        if macro == "INTEL_UBIT_EVENT_CONSTRAINT":
            code, counters = numbers
            return Constraint(code, 0, EVENT | code, counters)
        if macro == "INTEL_EVENT_CONSTRAINT_RANGE":
            first, last, counters = numbers
            return Constraint(first, last - first, EVENT, counters)
    except ValueError:
        pass
    raise Fault(f"{name}: {macro}({words}): a row that make_unit does not know")


@dataclass(frozen=True)
class Sources:
    """The files of a kernel's source that speak of a PMU. There are no event files if they name no
    counters."""

    events: list[str]
    constraints: ConstraintTable | None
    registers: tuple[Registers, ...] = ()
    pairs: frozenset[int] = frozenset()


def find_sources(folder: str, pmu: str) -> Sources:
    if pmu not in PROCESSORS:
        raise Fault(
            f"--linux: it is not known where Linux has {pmu} (known: "
            f"{' '.join(sorted(PROCESSORS))})"
        )
    processor = PROCESSORS[pmu]
    files = _event_files(folder, processor.folder) if processor.folder else []
    if processor.table is None:
        return Sources(
            files if _names_counters(files) else [], None,
            pairs=read_pairs(str(Path(folder) / AMD_TABLES)),
        )
    tables = str(Path(folder) / TABLES)
    return Sources(
        files, read_constraints(tables, processor.table),
        read_registers(tables, processor.registers) if processor.registers else (),
    )


def _event_files(folder: str, inner: str) -> list[str]:
    files = sorted(str(path) for path in (Path(folder) / EVENT_FILES / inner).glob("*.json"))
    if not files:
        raise Fault(
            f"{folder}/{EVENT_FILES}/{inner}: no event files, so this is no source of Linux with "
            "perf's tables"
        )
    return files


def _names_counters(files: list[str]) -> bool:
    """Those of AMD do not: each counter of a core may count each event."""
    return any('"Counter"' in read_file(name) for name in files)
