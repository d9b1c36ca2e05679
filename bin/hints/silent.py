"""Native events that count 0, since no line of the streams counts for them (docs/FORMATS.md, What
the calls do), and those of real processors that count something else in a recording
(docs/RECORDING.md, Codes)."""

from __future__ import annotations

import mmap
import os
import re
from dataclasses import dataclass
from typing import Iterable, Iterator, Sequence

from formats.files import Unread, opened, read_lines
from formats.presets import Presets, name_fault, read_presets
from formats.scripts import Call, calls_of
from formats.units import Event, Unit, fault_of, parts_of, read_unit
from formats.words import Words

MOST_TOLD = 10
SILENT = "counts 0: no line of the streams has its code"
RUN_TOOLS = ("papi_run", "papi_profil", "papi_regions")
REFUSED = re.compile(r"([0-9]+) [0-9]+ [a-z]+ PAPI_E.*")
ON = re.compile("|1|y|t", re.IGNORECASE)
# The processors of make_unit, and how the streams of tools/record begin (docs/RECORDING.md, Codes).
PROCESSOR = re.compile(
    r"(nhm|wsm|snb|ivb|hsw|bdw|skl|skx|clx|icl|icx|spr|amd64)(_\w+)?", re.IGNORECASE
)
COUNTED = "# counted: "  # a line of a unit that has the codes of recordings
RECORDING = b"# loaded at "
RECORDER = (
    "tools/record --unit UNIT writes lines for the events of UNIT, if tools/make_unit PMU "
    "--counted made it"
)


@dataclass(frozen=True)
class Native:
    """A native event as it is compared with the lines of a stream."""

    name: str
    component: int
    select: int
    mask: int
    modes: str
    amount: int = 0

    def pattern(self) -> bytes:
        """Of the lines that count for it."""
        masks = "|".join(f"{mask:02x}" for mask in range(256) if not self.mask or mask & self.mask)
        return f"^{self.component} {self.select:02x} (?:{masks}) [{self.modes}] ".encode()

    def code(self) -> str:
        parts = (
            [f"{self.select:02x}"] + [f"a bit of {self.mask:02x}"] * bool(self.mask)
            + [f"mode {self.modes}"] * (len(self.modes) == 1)
        )
        return " with ".join((parts[0], " in ".join(parts[1:]))) if len(parts) > 1 else parts[0]

    def pmu(self) -> str:
        return self.name.partition("::")[0]

    def is_of_processor(self) -> bool:
        return PROCESSOR.fullmatch(self.pmu()) is not None


def silent_hints(tool: str, read: Words, lines: Sequence[str]) -> list[str]:
    """One hint for each native event of a set that ran. The lines are replies, among them those
    that refuse a call."""
    try:
        streams = read.others[1:]
        if tool not in RUN_TOOLS or not streams:
            return []
        unit = read_unit(read.options["-U"])
        presets = (
            read_presets(read.options["-P"], read.options["-C"]) if "-P" in read.options else None
        )
        natives = list(_natives(unit, presets, _names(tool, read, lines)))
        silent = [native for native in natives if not _is_met(native, streams)]
        others = [native for native in natives if native not in silent and native.is_of_processor()]
        return _told(silent, streams) + _told_otherwise(
            others, streams, _is_counted(read.options["-U"])
        )
    except (Unread, OSError, KeyError, IndexError, ValueError):
        return []


def _told(silent: Sequence[Native], streams: Sequence[str]) -> list[str]:
    told = [f"{native.name} {SILENT}, {native.code()}" for native in silent[:MOST_TOLD]]
    more = (
        [f"and {len(silent) - MOST_TOLD} more native events count 0"] if len(silent) > MOST_TOLD
        else []
    )
    return (
        told + more + [RECORDER]
        * (any(native.is_of_processor() for native in silent) and _are_of_others(streams))
    )


def _told_otherwise(
    natives: Sequence[Native], streams: Sequence[str], is_counted: bool
) -> list[str]:
    """Over a recording: all whose codes are the processor's own, and those with a least amount,
    since a line has the amount of many occurrences."""
    if not natives or not any(_is_recording(stream) for stream in streams):
        return []
    if not is_counted:
        pmu = natives[0].pmu()
        return [
            (
                f"{native.name} has a code of the processor itself, and a recording has others: "
                f"tools/make_unit {pmu} --counted makes the unit for it"
            )
            for native in natives[:MOST_TOLD]
        ]
    return [
        (
            f"{native.name} counts lines of a recording, and not what its name says: "
            "docs/RECORDING.md has more under Codes"
        )
        for native in natives[:MOST_TOLD] if native.amount > 0
    ]


def _is_counted(unit: str) -> bool:
    return any(line.startswith(COUNTED) for line in read_lines(unit))


def _are_of_others(streams: Sequence[str]) -> bool:
    """Whether a stream is a recording with the codes of examples/recorded.unit: its instructions
    have no umask."""
    own, any_code = Native("", 0, 0xC0, 1, "u"), Native("", 0, 0xC0, 0, "u")
    return any(
        _is_recording(stream) and _is_met(any_code, [stream]) and not _is_met(own, [stream])
        for stream in streams
    )


def _is_recording(stream: str) -> bool:
    with opened(stream) as file:
        return file.read(len(RECORDING)) == RECORDING


# ---- what ran


def _names(tool: str, read: Words, lines: Sequence[str]) -> Iterable[str]:
    if tool == "papi_regions":
        return read.options["--events"].split(",")
    refused = {int(found[1]) for line in lines if (found := REFUSED.fullmatch(line))}
    return _names_that_ran(
        call for call in calls_of(read_lines(read.others[0])) if call.line not in refused
    )


def _names_that_ran(calls: Iterable[Call]) -> Iterable[str]:
    """The texts of the events of sets over which occurrences were consumed."""
    sets: dict[tuple[int, str], list[str]] = {}
    running: set[tuple[int, str]] = set()
    ran: dict[str, None] = {}
    for call in calls:
        key = (call.thread, call.arguments[0] if call.arguments else "")
        if call.name == "add":
            sets.setdefault(key, []).append(call.arguments[1])
        elif call.name == "remove":
            sets[key] = [
                name for name in sets.get(key, []) if name.upper() != call.arguments[1].upper()
            ]
        elif call.name in ("cleanup", "destroy"):
            sets.pop(key, None)
        elif call.name == "start":
            running.add(key)
        elif call.name == "stop":
            running.discard(key)
        elif call.name == "run":
            for thread, number in sorted(running):
                if thread == call.thread:
                    ran.update(dict.fromkeys(sets.get((thread, number), [])))
    return ran


# ---- names and codes


def _natives(unit: Unit, presets: Presets | None, names: Iterable[str]) -> Iterator[Native]:
    """Each once. Names that name no event were refused."""
    seen: set[str] = set()
    for name in names:
        if name_fault(presets, unit, name):
            continue
        texts = (
            presets.entries[name].natives if presets is not None and name in presets.entries
            else (name,)
        )
        for text in texts:
            native = _native(unit, text)
            if native.name not in seen:
                seen.add(native.name)
                yield native


def _native(unit: Unit, text: str) -> Native:
    """That of a text without fault."""
    event = unit.find(text)
    assert event is not None and not fault_of(unit, text)
    attributes = {
        name.lower(): value
        for name, _, value in (attribute.partition("=") for attribute in parts_of(text)[3])
    }
    chosen = [umask for umask in event.umasks if umask.name.lower() in attributes] or [
        umask for umask in event.umasks if umask.is_default
    ]
    mask = 0
    for umask in chosen:
        mask |= umask.bits
    modifiers = {
        name: value for name, value in attributes.items()
        if name not in {umask.name.lower() for umask in event.umasks}
    }
    modes = (
        "".join(mode for mode in "uk" if mode in modifiers and ON.fullmatch(modifiers[mode]))
        or "uk"
    )
    amount = max([int(modifiers.get("c") or "0", 0), *[umask.amount for umask in chosen]])
    return Native(
        _canonical(event, [umask.name for umask in chosen], modifiers), event.component_number,
        event.select, mask, modes, amount,
    )


def _canonical(event: Event, umasks: Sequence[str], modifiers: dict[str, str]) -> str:
    flags = [name for name in "ukei" if name in modifiers and ON.fullmatch(modifiers[name])]
    amount = int(modifiers.get("c") or "0", 0)
    return ":".join([event.full_name(), *umasks, *flags, *[f"c={amount}"] * (amount > 0)])


# ---- streams


def _is_met(native: Native, streams: Sequence[str]) -> bool:
    """Whether a line of a stream counts for it."""
    pattern = re.compile(native.pattern(), re.MULTILINE | re.IGNORECASE)
    return any(_finds(pattern, stream) for stream in streams)


def _finds(pattern: re.Pattern[bytes], stream: str) -> bool:
    with opened(stream) as file:
        if not os.fstat(file.fileno()).st_size:
            return False
        with mmap.mmap(file.fileno(), 0, access=mmap.ACCESS_READ) as content:
            return pattern.search(content) is not None
