"""The unchanged programs of papi-tools over the library, and what they list beside what the tools
of this repository list. For `papi_programs`."""

from __future__ import annotations

import re
import shutil
import subprocess
import xml.etree.ElementTree as xml
from dataclasses import dataclass
from pathlib import Path
from typing import Callable, Iterator

from here import ROOT
from papi_library import Files, Library, Ran, run

SECONDS = 120

# A unit's component of processors has PAPI's name for a client (docs/C_PROGRAMS.md).
PROCESSORS = {"cpu": "perf_event"}

# Each program with words that make it short, and that end with status 0.
PROGRAMS: dict[str, list[str]] = {
    "papi_avail": [],
    "papi_native_avail": [],
    "papi_command_line": [],
    "papi_event_chooser": [],
    "papi_decode": [],
    "papi_component_avail": ["-d"],
    "papi_xml_event_info": [],
    "papi_mem_info": [],
    "papi_version": [],
    "papi_error_codes": [],
    "papi_cost": ["-t", "500"],
    "papi_clockres": [],
    "papi_multiplex_cost": ["-x", "3", "-t", "500"],
    "papi_hardware_avail": [],
}
OWN_COMPARISON = ("papi_command_line", "papi_event_chooser")


@dataclass(frozen=True)
class Case:
    """A comparison, and what is wrong, or nothing."""

    name: str
    why: str


def difference(what: str, have: object, wanted: object) -> str:
    """How two lists or values differ, or nothing."""
    if have == wanted:
        return ""
    if isinstance(have, (set, frozenset)) and isinstance(wanted, (set, frozenset)):
        return (
            f"{what}: there alone {sorted(have - wanted)[:5]}, here alone "
            f"{sorted(wanted - have)[:5]}"
        )
    return f"{what}: {str(have)[:120]}, and here {str(wanted)[:120]}"


class Both:
    """The programs of papi-tools and the tools of this repository, over the same files."""

    def __init__(self, library: Library, program: Path, files: Files, folder: Path, step: int):
        self.environment = {**library.environment(files), "KISTALUB_STEP": str(step)}
        self.program = program
        self.files = files
        self.folder = folder
        self.step = step

    def there(self, name: str, *words: str) -> Ran:
        """A program of papi-tools."""
        return run([shutil.which(name) or name, *words], self.environment, SECONDS, self.folder)

    def here(self, tool: str, *words: str, presets: bool = True) -> str:
        """What a tool of this repository prints."""
        table = (
            ["-P", str(self.files.presets), "-C", self.files.cpu] if presets and self.files.presets
            else []
        )
        done = subprocess.run(
            [str(self.program), tool, "-U", str(self.files.unit), *table, *words],
            capture_output=True, text=True,
        )
        return done.stdout

    # ---- what our tools list

    def presets(self) -> dict[str, tuple[bool, bool]]:
        """Each preset: whether it is available, and derived."""
        rows = re.findall(
            r"^(PAPI_\w+) +0x[0-9a-f]+ +(Yes|No) +(Yes|No)", self.here("papi_avail"), re.MULTILINE
        )
        return {name: (available == "Yes", derived == "Yes") for name, available, derived in rows}

    def natives(self) -> dict[str, list[str]]:
        """Each native event with its umasks."""
        events: dict[str, list[str]] = {}
        for line in self.here("papi_native_avail", presets=False).splitlines():
            if match := re.match(r"  :(\w\S*)  ", line + "  "):
                events[list(events)[-1]].append(match[1])
            elif match := re.match(r"(\S+::\S+)(  |$)", line):
                events[match[1]] = []
        return events

    def components(self) -> list[str]:
        return re.findall(
            r"^Component (\S+): pmu", self.here("papi_native_avail", presets=False), re.MULTILINE
        )

    # ---- the comparisons

    def cases(self) -> Iterator[Case]:
        for name, words in PROGRAMS.items():
            if name not in OWN_COMPARISON:
                ran = self.there(name, *words)
                yield Case(
                    name,
                    "" if ran.status == 0 else f"{ran.how}: {(ran.err or ran.out).strip()[-200:]}",
                )
        compared: list[Callable[[], str]] = [
            self.avail, self.avail_available, self.native_avail, self.decode, self.component_avail,
            self.xml_events, self.version, self.error_codes,
        ]
        for compare in compared:
            yield Case(f"{compare.__name__} compared", compare())
        yield from self.choosers()
        yield from self.command_lines()

    def avail(self) -> str:
        """A C program sees all of PAPI's presets. Those that the model does not have are not
        available over these files."""
        rows = re.findall(
            r"^(PAPI_\w+) +0x[0-9a-f]+ +(Yes|No) +(Yes|No)", self.there("papi_avail").out,
            re.MULTILINE,
        )
        have, wanted = {name: (a == "Yes", d == "Yes") for name, a, d in rows}, self.presets()
        others = {name for name, row in have.items() if name not in wanted and row[0]}
        return difference(
            "presets", {name: row for name, row in have.items() if name in wanted}, wanted
        ) or difference("further presets", others, set())

    def avail_available(self) -> str:
        have = set(
            re.findall(
                r"^(PAPI_\w+) +0x[0-9a-f]+ +(?:Yes|No) ", self.there("papi_avail", "-a").out,
                re.MULTILINE,
            )
        )
        return difference(
            "available presets", have, {name for name, row in self.presets().items() if row[0]}
        )

    def native_avail(self) -> str:
        events: dict[str, list[str]] = {}
        for line in self.there("papi_native_avail").out.splitlines():
            if match := re.match(r"\| (\S+::\S+) ", line):
                events[match[1]] = []
            elif match := re.match(r"\|     :(\S+) ", line):
                events[list(events)[-1]].append(match[1])
        return difference("events", set(events), set(self.natives())) or difference(
            "umasks", events, self.natives()
        )

    def decode(self) -> str:
        have = {
            line.split(",")[0].strip('"')
            for line in self.there("papi_decode", "-a").out.splitlines() if line.startswith("PAPI_")
        }
        wanted = {
            line.split(",")[1] for line in self.here("papi_decode", "-a").splitlines()
            if line.startswith("PRESET,")
        }
        return difference("decoded presets", have, wanted)

    def component_avail(self) -> str:
        have = re.findall(r"^Name:   (\S+)", self.there("papi_component_avail").out, re.MULTILINE)
        wanted = [PROCESSORS.get(name, name) for name in self.components()]
        return difference("components", list(dict.fromkeys(have)), wanted)

    def xml_events(self) -> str:
        try:
            tree = xml.fromstring(self.there("papi_xml_event_info").out)
        except xml.ParseError as error:
            return f"no XML: {error}"
        names = {
            kind: {
                e.get("name", "") for s in tree.iter("eventset") if s.get("type") == kind
                for e in s.iter("event")
            }
            for kind in ("PRESET", "NATIVE")
        }
        wanted = {name for name, row in self.presets().items() if row[0]}
        return difference("XML presets", names["PRESET"], wanted) or difference(
            "XML events", names["NATIVE"], set(self.natives())
        )

    def version(self) -> str:
        return difference(
            "version", self.there("papi_version").out.strip(), "PAPI Version: 7.0.0.0"
        )

    def error_codes(self) -> str:
        have = {
            int(code)
            for code in re.findall(
                r"^Error code +(-?\d+):", self.there("papi_error_codes").out, re.MULTILINE
            )
        }
        named = re.findall(
            r"^#define PAPI_E\w+ \(?(-\d+)", (ROOT / "include/papi_constants.h").read_text(),
            re.MULTILINE,
        )
        return difference("codes of errors", have, {0, *map(int, named)})

    def choosers(self) -> Iterator[Case]:
        """What can be added to some presets, and to a native event. Presets that conflict are
        refused on both sides."""
        available = [name for name, row in self.presets().items() if row[0]]
        ended = set()
        for first in range(len(available)):
            for events in (
                available[first : first + 1], available[first : first + 2],
                available[first : first + 4],
            ):
                ran = self.there("papi_event_chooser", "PRESET", *events)
                ended.add(ran.status)
                have = set(re.findall(r"^(PAPI_\w+) +0x", ran.out, re.MULTILINE))
                text = self.here("papi_event_chooser", "PRESET", *events)
                wanted = set(re.findall(r"^(PAPI_\w+)$", text, re.MULTILINE))
                refused = not re.search(r"^Total events:", text, re.MULTILINE)
                why = "" if ran.status == int(refused) else f"{ran.how}, and here {text!r}"
                yield Case(
                    f"papi_event_chooser PRESET {' '.join(events)}",
                    why or difference("events", have, wanted),
                )
        yield Case("papi_event_chooser", "" if 0 in ended else "no call ends with status 0")
        native = next(iter(self.natives()))
        have = set(
            re.findall(
                r"^(\S+::\S+)\t0x|^    0x[0-9a-f]+::(\S+) ",
                self.there("papi_event_chooser", "NATIVE", native).out, re.MULTILINE,
            )
        )
        text = self.here("papi_event_chooser", "NATIVE", native, presets=False)
        wanted = set(re.findall(r"^\S+::(\S+)$", text, re.MULTILINE))
        masked = {name.split(":")[0] for name in wanted if ":" in name}
        spelled = {whole.partition("::")[2] if whole else mask for whole, mask in have}
        yield Case(
            f"papi_event_chooser NATIVE {native}", difference("events", spelled - masked, wanted)
        )

    def command_lines(self) -> Iterator[Case]:
        available = [name for name, row in self.presets().items() if row[0]]
        events = available[:1] or list(self.natives())[:1]
        ran = self.there("papi_command_line", *events)
        have = [int(number) for number in re.findall(r"^\S+ : +(\d+)", ran.out, re.MULTILINE)]
        yield Case("papi_command_line", "" if ran.status == 0 else f"{ran.how}: {ran.out[-200:]}")
        yield Case("papi_command_line compared", difference("counts", have, self.read_here(events)))

    def read_here(self, events: list[str]) -> list[int]:
        """What papi_run reads of these events after as many occurrences as happen before
        PAPI_stop."""
        lines = [
            "0 create", *(f"0 add 0 {event}" for event in events), "0 start 0",
            f"0 run {self.step}", "0 stop 0",
        ]
        script = self.folder / "script"
        script.write_text("\n".join(lines) + "\n")
        text = self.here("papi_run", str(script), str(self.files.stream))
        match = re.search(r"stop 0 = PAPI_OK (.*)$", text, re.MULTILINE)
        return [int(word) for word in match[1].split()] if match else []
