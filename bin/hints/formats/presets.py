"""The presets and user events of a processor, and why one of them is not available
(docs/FORMATS.md, The preset file)."""

from __future__ import annotations

from dataclasses import dataclass, field

from .files import read_table
from .texts import near, shown
from .units import Unit, fault_of

# tools/make_presets: begin
SYMBOLS = (
    "PAPI_L1_DCM", "PAPI_L1_ICM", "PAPI_L2_DCM", "PAPI_L2_ICM", "PAPI_L1_TCM", "PAPI_L2_TCM",
    "PAPI_L3_TCM", "PAPI_TLB_DM", "PAPI_TLB_IM", "PAPI_L1_LDM", "PAPI_L1_STM", "PAPI_BR_UCN",
    "PAPI_BR_CN", "PAPI_BR_TKN", "PAPI_BR_NTK", "PAPI_BR_MSP", "PAPI_BR_PRC", "PAPI_TOT_INS",
    "PAPI_LD_INS", "PAPI_SR_INS", "PAPI_BR_INS", "PAPI_RES_STL", "PAPI_TOT_CYC", "PAPI_LST_INS",
    "PAPI_FP_OPS", "PAPI_REF_CYC",
)
# tools/make_presets: end
FORMULAS = ("DERIVED_POSTFIX", "DERIVED_INFIX")
COMPUTED = ("NOT_DERIVED", "DERIVED_ADD", "DERIVED_SUB", *FORMULAS)
READ_ALONE = ("DERIVED_PS", "DERIVED_ADD_PS", "DERIVED_CMPD")
NOTES = ("NOTE", "SDESC", "LDESC")
FRONT = "PAPI_"


@dataclass(frozen=True)
class Entry:
    """The last row of a preset or user event."""

    kind: str
    formula: str
    natives: tuple[str, ...]


@dataclass
class Presets:
    """What a preset file has for one processor, and the processors that it has."""

    cpu: str
    cpus: list[str] = field(default_factory=list)
    entries: dict[str, Entry] = field(default_factory=dict)
    # presets of rows that the program does not know
    passed_over: list[str] = field(default_factory=list)

    def user_events(self) -> list[str]:
        return [name for name in self.entries if not name.startswith(FRONT)]


def read_presets(name: str, cpu: str) -> Presets:
    presets = Presets(cpu)
    group: list[str] = []
    ends = False  # whether the next CPU row begins another group
    for row in read_table(name):
        kind, *fields = row.fields()
        kind = kind.upper()
        if kind == "CPU":
            group = [] if ends else group
            group.append(fields[0] if fields else "")
            presets.cpus += [group[-1]]
            ends = False
        elif kind in ("PRESET", "EVENT"):
            ends = True
            if cpu in group and fields:
                if kind == "EVENT" or fields[0] in SYMBOLS:
                    presets.entries[fields[0]] = entry_of(fields)
                elif fields[0].startswith(FRONT):
                    presets.passed_over.append(fields[0])
    return presets


def entry_of(fields: list[str]) -> Entry:
    """The fields of a row after its kind: the name, the type, a formula if the type has one, and
    the native events."""
    kind = fields[1] if len(fields) > 1 else ""
    rest = fields[2:]
    formula = rest.pop(0) if kind in FORMULAS and rest else ""
    natives = []
    for text in rest:
        if not text or text.upper() in NOTES:
            break
        natives.append(text)
    return Entry(kind, formula, tuple(natives))


def cpu_fault(presets: Presets) -> str:
    if presets.cpu in presets.cpus:
        return ""
    return f"the preset file has no processor {shown(presets.cpu)}{near(presets.cpu, presets.cpus)}"


def why_unavailable(presets: Presets, unit: Unit, name: str) -> str:
    """Why a preset or user event of the file is not available, or nothing if it is."""
    entry = presets.entries.get(name)
    if entry is None:
        return f"the preset file has no row of {name} for the processor {presets.cpu}"
    if entry.kind in READ_ALONE:
        return f"{name} is of type {entry.kind}, which is not computed"
    if "#" in entry.formula:
        return f"the formula of {name} has a #, a time, and is not computed"
    if not entry.natives:
        return f"{name} has no native events"
    if entry.kind == "NOT_DERIVED" and len(entry.natives) > 1:
        return (
            f"{name} is NOT_DERIVED and has {len(entry.natives)} native events, where one is wanted"
        )
    for native in entry.natives:
        if fault := fault_of(unit, native):
            return f"{name} is not available: {fault}"
    components = {event.component for native in entry.natives if (event := unit.find(native))}
    return (
        f"{name} has native events of several components: {', '.join(sorted(components))}"
        if len(components) > 1 else ""
    )


def instead_of(presets: Presets | None, name: str) -> str:
    """What counts as a preset that the program does not know, if the preset file has something of
    it."""
    event = name.removeprefix(FRONT)
    if presets is not None and event in presets.entries:
        return f"; the preset file has the user event {event}"
    if presets is not None and name in presets.passed_over:
        return f"; tools/preset_rows makes the user event {event} of its row in the preset file"
    return ""


def name_fault(presets: Presets | None, unit: Unit, name: str) -> str:
    """Why a text of a script or a word names no event that can be counted, or nothing if it names
    one."""
    if presets is not None and name in presets.entries:
        return why_unavailable(presets, unit, name)
    if not name.startswith(FRONT):
        return fault_of(unit, name)
    if name not in SYMBOLS:
        return (
            f"{name} is none of the {len(SYMBOLS)} presets that the program "
            f"knows{instead_of(presets, name) or near(name, SYMBOLS)}"
        )
    if presets is None:
        return f"{name} is a preset: -P PRESETS and -C CPU name those of a processor"
    return why_unavailable(presets, unit, name)
