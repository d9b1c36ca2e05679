"""The scripts of `steps`: what PAPI can count on a machine without counters, and calls drawn over
it."""

from __future__ import annotations

from dataclasses import dataclass, field
from random import Random

from formats.scripts import CALLS

# The kernel's software events, and software-defined ones, under PAPI's names. Each has a counter to
# itself, since PAPI refuses none for want of a counter.
UNIT = """COMPONENT,perf_event,perf
COUNTER,P0,48,P
COUNTER,P1,48,P
COUNTER,P2,48,P
COUNTER,P3,48,P
COUNTER,P4,48,P
COUNTER,P5,48,P
EVENT,TASK-CLOCK,01,P0 P1 P2 P3 P4 P5,Time of a task
EVENT,PAGE-FAULTS,02,P0 P1 P2 P3 P4 P5,Page faults
EVENT,CONTEXT-SWITCHES,03,P0 P1 P2 P3 P4 P5,Changes of the task
EVENT,CPU-CLOCK,04,P0 P1 P2 P3 P4 P5,Time of a processor
COMPONENT,sde,steps
COUNTER,S0,48,P
COUNTER,S1,48,P
EVENT,ONE,01,S0 S1,The first event of checks/step_calls.c
EVENT,TWO,02,S0 S1,The second one
"""
# Presets and user events, below a CPU row of the processor. PAPI has a file of each.
PRESETS = """PRESET,PAPI_TOT_INS,NOT_DERIVED,perf::PAGE-FAULTS
PRESET,PAPI_LST_INS,DERIVED_ADD,perf::PAGE-FAULTS,perf::CONTEXT-SWITCHES
"""
USER_EVENTS = """EVENT,OWN,NOT_DERIVED,perf::CPU-CLOCK
EVENT,SUM,DERIVED_SUB,perf::TASK-CLOCK,perf::PAGE-FAULTS
"""
# The names of events as scripts have them, by the names that `events` replies here.
WORD_OF = {"steps::ONE": "sde:::steps::ONE", "steps::TWO": "sde:::steps::TWO"}
SOFTWARE = (
    "perf::TASK-CLOCK", "perf::PAGE-FAULTS", "perf::PAGE-FAULTS", "perf::CONTEXT-SWITCHES",
    "perf::CPU-CLOCK", "perf::PAGE-FAULTS:u",
)  # fmt: skip
DEFINED = ("sde:::steps::ONE", "sde:::steps::TWO")
# Those of the preset file, with their native events.
NATIVES = {
    "PAPI_TOT_INS": ("perf::PAGE-FAULTS",),
    "PAPI_LST_INS": ("perf::PAGE-FAULTS", "perf::CONTEXT-SWITCHES"),
    "OWN": ("perf::CPU-CLOCK",), "SUM": ("perf::TASK-CLOCK", "perf::PAGE-FAULTS"),
}  # fmt: skip
NO_EVENTS = ("perf::NO_SUCH", "perf::TASK-CLOCK:no_such", "PAPI_BR_INS", "PAPI_NONE")

# `assign` and `raw` are no calls of PAPI.
WEIGHTS = {
    "create": 4, "add": 24, "start": 14, "stop": 10, "read": 6, "remove": 9, "overflow": 14,
    "multiplex": 4, "domain": 5, "component": 4,
    "cleanup": 4, "destroy": 5, "accum": 4, "reset": 4, "run": 4, "state": 4, "events": 4,
    "register": 2, "unregister": 1, "threads": 2,
    "code": 2, "name": 2,
}  # fmt: skip
# What is drawn of each kind of argument, but for sets and events. PAPI has no slice, so each is
# right.
ARGUMENTS = {
    "COMPONENT": ["0", "0", "1", "1", "2", "9"],
    "BITS": ["0", "1", "1", "2", "3", "3", "4", "7", "8"], "SLICE": ["1", "1000"],
    "THRESHOLD": ["0", "0", "0", "1", "255", "256", "1000", "10000", "100000", "100000", "100000"],
    "N": ["1", "3"],
    "CODE": [
        "0x80000032", "0x8000003c", "0x80000037", "0x8000007f", "0x80000fff", "0x00000032",
        "0xc0000000", "0xc0000001", "0xc0000002",
    ],
}  # fmt: skip
FIRST = ["overflow", "overflow", "overflow", "multiplex", "start", "read"]
LENGTHS = range(8, 32)
ABSENT = ["3", "9", "63"]
Script = tuple[str, ...]


@dataclass
class Drawing:
    """A script as it is drawn: its calls, how many sets each thread made at most, and what it gave
    them."""

    random: Random
    threads: int
    sets: dict[int, int] = field(default_factory=dict)
    given: dict[tuple[int, str], list[str]] = field(default_factory=dict)
    lines: list[str] = field(default_factory=list)

    def event(self, there: list[str]) -> str:
        if there and self.random.randrange(3):
            return self.random.choice(there)
        kinds = (SOFTWARE,) * 10 + (tuple(NATIVES),) * 8 + (DEFINED,) * 3 + (NO_EVENTS,) * 2
        return self.random.choice(self.random.choice(kinds))

    def set_of(self, thread: int) -> str:
        made = self.sets.get(thread, 0)
        if not made or not self.random.randrange(16):
            return self.random.choice([str(made), *ABSENT])
        return str(self.random.randrange(made))

    def call(self, thread: int, name: str, set_of: str = "") -> None:
        words: list[str] = []
        for kind in CALLS[name]:
            there = self.given.setdefault((thread, words[0] if words else ""), [])
            if kind == "SET":
                words.append(set_of or self.set_of(thread))
            elif kind == "EVENT":
                words.append(self.event(there if name in ("remove", "overflow") else []))
            else:
                words.append(self.random.choice(ARGUMENTS[kind]))
        self.lines.append(" ".join([str(thread), name, *words]))
        if name == "create":
            self.sets[thread] = self.sets.get(thread, 0) + 1
        if name == "add":
            self.given[thread, words[0]].append(words[1])

    def begin(self, thread: int) -> None:
        """Nearly all threads begin with sets, which mostly have events."""
        if not self.random.randrange(20):
            return
        if not self.random.randrange(3):
            self.call(thread, "register")
        for number in range(self.random.choice([1, 1, 2])):
            self.call(thread, "create")
            for name in ["add"] * self.random.choice([0, 1, 2, 2, 3, 4]) + self.random.choices(
                FIRST, k=2
            ):
                self.call(thread, name, str(number))

    def end(self) -> None:
        """What each set is at the end."""
        for thread, made in self.sets.items():
            for number in range(made):
                self.lines += [f"{thread} state {number}", f"{thread} events {number}"]


def draw(seed: int, number: int) -> Script:
    random = Random(f"{seed} {number}")
    drawing = Drawing(random, random.choice([1, 1, 1, 2, 3]))
    for thread in range(drawing.threads):
        drawing.begin(thread)
    for name in random.choices(list(WEIGHTS), list(WEIGHTS.values()), k=random.choice(LENGTHS)):
        drawing.call(random.randrange(drawing.threads), name)
    drawing.end()
    return tuple(drawing.lines)
