"""A unit file's rows out of libpfm4's table of a PMU, and what cannot be said in them.

Every name is encoded by libpfm4, and what its code is made of decides. So if both accept a name
they give it the same code. The unit also accepts some modifiers that libpfm4 refuses: it has all of
them for all events.
"""

from __future__ import annotations

from collections import Counter
from dataclasses import dataclass
from itertools import combinations
from typing import Iterator

from parts import unit_file
from parts.command import Fault, Progress
from parts.event_counters import EventCounters, names_of, union
from parts.left_out import SAYABLE_MODIFIERS, Account, LeftOut
from parts.libpfm4 import Attribute, Event, Libpfm4, Pmu, Refused
from parts.linux_source import Sources
from parts.perf_events import Code, CounterTable, Places
from parts.preset_umasks import Umasks
from parts.shared_registers import Kept, Need, keep
from parts.unit_file import MOST_COUNTERS, MOST_EVENTS, MOST_UMASKS, NOTHING_FIXED, Fixed

__all__ = ["SAYABLE_MODIFIERS", "Account", "Converter"]

COMPONENT = "cpu"
ALWAYS = 0x530000  # USR, OS, INT and EN of the event select register
EDGE = 1 << 18
INVERT = 1 << 23
ANY_THREAD = 1 << 21  # of the core, not this one alone
AMOUNT_PLACE = 24
CORE_CYCLES = 1  # the fixed counter on which the kernel's watchdog counts
SAYABLE_BITS = 0xFF000000 | INVERT | EDGE | 0xFFFF
WIDER_SELECT = 0xF  # AMD's select codes have four bits more, behind the first 32

# The events that all of Intel's cores have (its manual, volume 3, architectural performance
# events), by the names of libpfm4's table ix86arch. PAPI finds them beside the core's own. libpfm4
# makes that table out of what the machine says on which it runs, so it is empty elsewhere.
ARCHITECTURAL = {
    "UNHALTED_CORE_CYCLES": (0x003C, "Core cycles while not halted"),
    "INSTRUCTION_RETIRED": (0x00C0, "Instructions retired"),
    "UNHALTED_REFERENCE_CYCLES": (0x013C, "Reference cycles while not halted"),
    "LLC_REFERENCES": (0x4F2E, "References to the last level of cache"),
    "LLC_MISSES": (0x412E, "Misses of the last level of cache"),
    "BRANCH_INSTRUCTIONS_RETIRED": (0x00C4, "Branch instructions retired"),
    "MISPREDICTED_BRANCH_RETIRED": (0x00C5, "Mispredicted branch instructions retired"),
}


@dataclass(frozen=True)
class Coded:
    """What libpfm4 encodes a name as."""

    codes: tuple[int, ...]

    @property
    def special(self) -> int:
        return self.codes[0] ^ ALWAYS

    @property
    def code(self) -> Code:
        return self.special & 0xFF, self.special >> 8 & 0xFF

    @property
    def fixed(self) -> Fixed:
        return Fixed(
            self.special & EDGE != 0, self.special & INVERT != 0,
            self.special >> AMOUNT_PLACE & 0xFF,
        )


@dataclass(frozen=True)
class CodedUmask:
    """A umask with what libpfm4 encodes its event with it as."""

    attribute: Attribute
    coded: Coded

    @property
    def select(self) -> int:
        return self.coded.code[0]


@dataclass(frozen=True)
class Choice:
    """What is asked of a unit, beside its processor."""

    width: int = 48
    most: int | None = None  # programmable counters that are taken
    wanted: Umasks = frozenset()  # umasks that stay before others where an event has too many
    threads: bool = True  # a core has two
    watchdog: bool = False  # the kernel's holds a counter
    # the unit gets codes of its own, so umasks of one event may have different select codes
    is_counted: bool = False


class Converter:
    """Makes one unit, and keeps the account of what it left out."""

    def __init__(
        self, library: Libpfm4, pmu: Pmu, table: CounterTable | None = None,
        kernel: Sources | None = None, choice: Choice = Choice(), there: int = 0,
    ):
        """`table` says on which counters events may stand, and `there` is how many programmable
        ones there are, if the PMU of libpfm4 does not say it right."""
        self.library = library
        self.pmu = pmu
        self.table = table
        self.kernel = kernel
        self.constraints = kernel.constraints if kernel else None
        self.choice = choice
        self.there = there or (table.programmable() if table else 0) or pmu.programmable
        self.held = (
            frozenset({CORE_CYCLES}) if choice.watchdog and pmu.fixed > CORE_CYCLES else frozenset()
        )
        most = self.there - (choice.watchdog and not self.held)
        self.programmable = most if choice.most is None else min(choice.most, most)
        self.fixed = frozenset(range(pmu.fixed)) - self.held
        self.account = Account()
        self.counters = EventCounters(
            self.programmable, pmu.fixed, table, self.constraints, self.held
        )
        self.kept: tuple[Kept, ...] = ()
        self.architectural: set[str] = set()
        if self.programmable + pmu.fixed > MOST_COUNTERS:
            raise Fault(
                f"{pmu.name} has {self.programmable + pmu.fixed} counters, and a unit at most "
                f"{MOST_COUNTERS}"
            )

    def assumption(self) -> str:
        """What the unit takes for granted of the counters, as a sentence."""
        few = (
            f"the first {self.programmable} of {self.there}" if self.programmable < self.there
            else f"all {self.programmable}"
        )
        if self.constraints:
            where = "on the counters that the kernel's table" + (
                " and the event files allow" if self.table else " allows"
            )
        elif self.table:
            where = "on the counters that the event files name"
        elif self.kernel:
            where = "on each programmable counter, as Linux has it"
        else:
            where = (
                "on each programmable counter, since no event files that name counters were given "
                "(--events, --linux)"
            )
        shared = (
            "" if self.table or self.kernel or self.programmable < self.there
            else "; hyperthreading may leave a thread fewer (--counters 4)"
        )
        held = "; the kernel's watchdog holds a counter" if self.choice.watchdog else ""
        return (
            f"assumed: an event may stand {where}; {few} programmable counters are "
            f"there{shared}{held}"
        )

    def unit(self) -> unit_file.Unit:
        events: list[unit_file.Event] = []
        progress = Progress(self.pmu.name, self.pmu.events)
        self._keep_to_registers()
        for number, event in enumerate(self.source_events()):
            progress.show(number)
            try:
                converted = self._event(event)
                if len(events) == MOST_EVENTS:
                    raise LeftOut(f"more than {MOST_EVENTS:,} events")
                events.append(converted)
                self.account.count_modifiers(set(event.modifiers()))
            except LeftOut as reason:
                self.account.leave_out(event.name, str(reason))
        progress.close()
        self.account.codes, self.account.counters_known = self.counters.codes, self.counters.known
        if not events:
            raise Fault(f"no event of {self.pmu.name} has a code of an event select register")
        return unit_file.Unit(
            COMPONENT, self.pmu.name, self.choice.width, self.programmable, self.fixed,
            tuple(events),
        )

    def source_events(self) -> Iterator[Event]:
        """The events of the PMU's table, and those of the architecture that it does not have
        itself."""
        own = list(self.library.events(self.pmu))
        yield from own
        if self.pmu.kind == "core" and self.pmu.description.startswith("Intel"):
            self.architectural = ARCHITECTURAL.keys() - {event.name for event in own}
            yield from (
                Event(name, text, ()) for name, (_, text) in ARCHITECTURAL.items()
                if name in self.architectural
            )

    def encode(self, name: str) -> tuple[int, ...]:
        """The codes of a name of the unit, of the event select register and of a second one if it
        has that."""
        event, _, umask = name.partition(":")
        if event not in self.architectural:
            return self.library.encode(f"{self.pmu.name}::{name}")
        code = ARCHITECTURAL[event][0]
        if umask not in ("", f"0x{code >> 8:02x}"):
            raise Refused("no such umask of an architectural event")
        return (ALWAYS | code,)

    def _event(self, event: Event) -> unit_file.Event:
        if not unit_file.is_name(event.name):
            raise LeftOut("the name is not one of a unit file")
        if not event.umasks():
            return self._event_without_umasks(event)
        coded = self._coded_umasks(event)
        default = self._default(event, coded)
        coded = self._of_one_select(event, coded, default)
        places = {
            each: self._places(f"{event.name}:{each.attribute.name}", each.coded) for each in coded
        }
        coded = self._keep(
            event, coded,
            [each for each in coded if places[each] != Places(frozenset(), frozenset())],
            "the unit does not have its counters",
        )
        if not coded:
            raise LeftOut("the unit does not have its counters")
        coded = self._at_most_umasks(event, coded, default)
        alone = self._alone(event, coded)
        shared = union([places[each] for each in coded])
        for each in coded:
            if len(each.coded.codes) > 1:
                self.account.take_half(f"{event.name}:{each.attribute.name}")
        umasks = tuple(
            unit_file.Umask(
                each.attribute.name, each.coded.code[1], each == default, each in alone,
                each.attribute.description,
                names_of(places[each]) if places[each] != shared else (), each.coded.fixed,
            ) for each in coded
        )
        return unit_file.Event(
            event.name, coded[0].select, names_of(shared), event.description, umasks
        )

    def _event_without_umasks(self, event: Event) -> unit_file.Event:
        """If the code has umask bits or modifiers all the same, they become the default umask
        `0x..`, which libpfm4 reads as well."""
        coded = self._code(event.name)
        select, bits = coded.code
        umasks: tuple[unit_file.Umask, ...] = ()
        if bits or coded.fixed != NOTHING_FIXED:
            name = f"0x{bits:02x}"
            if self._code(f"{event.name}:{name}") != coded:
                raise LeftOut("the code has more than 8 bits and no umask")
            umasks = (
                unit_file.Umask(
                    name, bits, True, True, "The umask of the event's code", (), coded.fixed
                ),
            )
        places = self._places(event.name, coded)
        if places == Places(frozenset(), frozenset()):
            raise LeftOut("the unit does not have its counters")
        if len(coded.codes) > 1:
            self.account.take_half(event.name)
        return unit_file.Event(event.name, select, names_of(places), event.description, umasks)

    # ---- counters

    def _keep_to_registers(self) -> None:
        """Finds counters for the events that share registers."""
        if not self.kernel or not self.kernel.registers:
            return
        needs: list[Need] = []
        for event in self.source_events():
            for name in [f"{event.name}:{umask.name}" for umask in event.umasks()] or [event.name]:
                try:
                    coded = self._code(name)
                except LeftOut:
                    continue
                places = self.counters.places(coded.code, coded.fixed)
                if places.programmable:
                    needs.append(
                        Need(
                            coded.special & 0xFFFF,
                            coded.codes[1] if len(coded.codes) > 1 else None, places,
                        )
                    )
        self.kept = keep(self.kernel.registers, needs, self.programmable)
        self.counters.known = self.counters.codes = 0

    def _places(self, name: str, coded: Coded) -> Places:
        """The counters of a name. What a unit's rows cannot say of them is noted."""
        places, code = self.counters.places(coded.code, coded.fixed), coded.special & 0xFFFF
        for kept in self.kept:
            if code in kept.codes:
                self.account.keep(name, kept.counters)
                places = kept.places(code, places)
        if (
            self.kernel and self.constraints and self.choice.threads
            and self.constraints.is_exclusive(coded.code, coded.fixed)
        ):
            self.account.exclusive.append(name)
        if self.kernel and coded.code[0] in self.kernel.pairs:
            self.account.pairs.append(name)
            even = frozenset(
                number for number in places.programmable
                if number % 2 == 0 and number + 1 < self.programmable
            )
            places = Places(even, places.fixed)
        return places

    # ---- codes

    def _code(self, name: str) -> Coded:
        """The code, if the select code, the umask and modifiers of a unit are the whole of it
        beside the bits that every code has."""
        try:
            coded = Coded(self.encode(name))
        except Refused as refusal:
            raise LeftOut(f"libpfm4 says: {refusal}") from None
        if coded.special >> 32 and not (
            self.choice.is_counted and coded.special >> 32 <= WIDER_SELECT
        ):
            raise LeftOut("the select code has more than 8 bits")
        if coded.special & ANY_THREAD:
            raise LeftOut(
                "the code counts for any thread of a core, and a stream is one thread's own"
            )
        if coded.special & 0xFFFFFFFF & ~SAYABLE_BITS:
            raise LeftOut("the code sets a bit that is no modifier of a unit")
        if (
            self.kernel
            and len(coded.codes) > 1
            and not all(
                group.takes(coded.special & 0xFFFF, coded.codes[1])
                for group in self.kernel.registers
            )
        ):
            raise LeftOut("Linux refuses the value of its register")
        return coded

    def _coded_umasks(self, event: Event) -> list[CodedUmask]:
        coded: list[CodedUmask] = []
        for attribute in event.umasks():
            name = f"{event.name}:{attribute.name}"
            try:
                if not unit_file.is_umask_name(attribute.name):
                    raise LeftOut("the name is not one of a unit file")
                coded.append(CodedUmask(attribute, self._code(name)))
            except LeftOut as reason:
                self.account.leave_out(name, str(reason))
        if not coded:
            raise LeftOut("none of the umasks can be said")
        return coded

    def _default(self, event: Event, coded: list[CodedUmask]) -> CodedUmask | None:
        """The umask that the bare name stands for, if it is one of these. There is none if a umask
        of libpfm4 has a modifier's name, such as E: with a default umask the unit would take
        EVENT:E for that one with the modifier."""
        if any(umask.name.lower() in SAYABLE_MODIFIERS for umask in event.umasks()):
            self.account.leave_out(
                f"{event.name} (without a umask)",
                "libpfm4 has a umask of the event with the name of a modifier",
            )
            return None
        try:
            code = self._code(event.name)
        except LeftOut:
            return None
        return next((each for each in coded if each.coded == code), None)

    def _of_one_select(
        self, event: Event, coded: list[CodedUmask], default: CodedUmask | None
    ) -> list[CodedUmask]:
        """The umasks of the select code that the default has, or else most of them."""
        if self.choice.is_counted:
            return coded
        select = (
            default.select if default
            else Counter(each.select for each in coded).most_common(1)[0][0]
        )
        return self._keep(
            event, coded, [each for each in coded if each.select == select],
            "the umask changes the select code",
        )

    def _at_most_umasks(
        self, event: Event, coded: list[CodedUmask], default: CodedUmask | None
    ) -> list[CodedUmask]:
        """The default and those that are wanted stay. Of the others, second names go first, and
        then the last ones."""

        def rank(umask: CodedUmask) -> tuple[bool, bool, bool]:
            is_wanted = (event.name.upper(), umask.attribute.name.upper()) in self.choice.wanted
            return umask != default, not is_wanted, umask.attribute.is_alias

        kept = sorted(coded, key=rank)[:MOST_UMASKS]
        return self._keep(
            event, coded, [each for each in coded if each in kept],
            f"more than {MOST_UMASKS} umasks",
        )

    def _keep(
        self, event: Event, coded: list[CodedUmask], kept: list[CodedUmask], reason: str
    ) -> list[CodedUmask]:
        for each in coded:
            if each not in kept:
                self.account.leave_out(f"{event.name}:{each.attribute.name}", reason)
        return kept

    # ---- which umasks exclude others

    def _alone(self, event: Event, coded: list[CodedUmask]) -> set[CodedUmask]:
        """The umasks that no other may stand beside, chosen so that each pair that libpfm4 refuses
        has one of them."""
        pairs = list(combinations(coded, 2))
        refused = [pair for pair in pairs if not self._combine(event, *pair)]
        alone: set[CodedUmask] = set()
        while uncovered := [pair for pair in refused if alone.isdisjoint(pair)]:
            counts = Counter(each for pair in uncovered for each in pair)
            alone.add(max(counts, key=counts.__getitem__))
        if len(coded) > 1 and len(refused) == len(pairs):
            alone = set(coded)
        self.account.combinations += sum(not alone.isdisjoint(pair) for pair in pairs) - len(
            refused
        )
        return alone

    def _combine(self, event: Event, one: CodedUmask, other: CodedUmask) -> bool:
        try:
            code = self._code(f"{event.name}:{one.attribute.name}:{other.attribute.name}")
        except LeftOut:
            return False
        return code.codes[0] == one.coded.codes[0] | other.coded.codes[0]
