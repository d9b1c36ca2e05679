"""What is so when a call of a script is made, as `steps` says it of a difference: words such as
`running` or `a member`."""

from __future__ import annotations

from dataclasses import dataclass, field

from step_scripts import DEFINED, NATIVES, NO_EVENTS

UNAVAILABLE = "PAPI_BR_INS"  # a preset that PAPI knows
USER_EVENTS = ("OWN", "SUM")
LEAST_THRESHOLD = 256
DOMAINS = (1, 2, 3)
USER = 1
MOST_COMPONENTS = 2


def component_of(event: str) -> int | None:
    """The component to which PAPI binds a set that is given this event, even if it refuses it
    then."""
    if event in NO_EVENTS:
        return 0 if event == UNAVAILABLE else None
    return int(event in DEFINED)


def natives_of(*events: str) -> list[str]:
    """The native events of some events, each once, in the order in which they came."""
    return list(
        dict.fromkeys(native for event in events for native in NATIVES.get(event, (event,)))
    )


@dataclass
class SetState:
    """A set that is there. `bound` is its component in PAPI."""

    events: list[str] = field(default_factory=list)
    bound: int | None = None
    component: int | None = None
    runs: bool = False
    takes_turns: bool = False
    thresholds: set[str] = field(default_factory=set)
    is_lost: bool = False  # PAPI destroyed it with its thread
    is_moved: bool = False  # an event behind one that was removed, of which PAPI loses the place

    def empty(self) -> None:
        self.events, self.thresholds = [], set()
        self.bound = self.component = None
        self.takes_turns = self.is_moved = False

    def words(self) -> set[str]:
        said = {
            "lost": self.is_lost, "unbound": self.bound is None, "empty": not self.events,
            "running": self.runs, "multiplexed": self.takes_turns,
            "with a threshold": self.thresholds, "defined": self.bound == 1,
            "bound by a refusal": self.bound != self.component,
            "moved": self.is_moved,
        }  # fmt: skip
        return {word for word, holds in said.items() if holds}

    def words_of_event(self, event: str) -> set[str]:
        component = component_of(event)
        others = [each for each in self.thresholds if each != event]
        said = {
            "a member": event in self.events,
            "of another component": None not in (component, self.bound) and component != self.bound,
            "with a threshold of its own": event in self.thresholds,
            "beside a threshold": bool({*natives_of(event)} & {*natives_of(*others)}),
        }
        return {word for word, holds in said.items() if holds}


@dataclass
class ThreadState:
    sets: dict[int, SetState] = field(default_factory=dict)
    is_known: bool = False  # to PAPI
    is_registered: bool = False  # here

    def words(self) -> set[str]:
        said = {
            "known": self.is_known,
            "registered": self.is_registered,
            "counting": any(each.runs for each in self.sets.values()),
        }
        return {word for word, holds in said.items() if holds}


def words_of_event(event: str) -> set[str]:
    said = {
        "no event": event in NO_EVENTS, "unavailable": event == UNAVAILABLE,
        "with an attribute": ":no_such" in event,
        "derived": len(natives_of(event)) > 1, "a user event": event in USER_EVENTS,
    }  # fmt: skip
    return {word for word, holds in said.items() if holds}


class Model:
    """Follows a script by the replies in which both sides agree."""

    def __init__(self) -> None:
        self.threads: dict[int, ThreadState] = {}

    def thread(self, line: str) -> ThreadState:
        return self.threads.setdefault(int(line.split()[0]), ThreadState())

    def lists(self) -> tuple[str, str]:
        """The threads that PAPI knows, and those that are registered here."""
        known = [str(number) for number, each in sorted(self.threads.items()) if each.is_known]
        return " ".join(known), " ".join(
            str(number) for number, each in sorted(self.threads.items()) if each.is_registered
        )

    def words(self, line: str) -> set[str]:
        """What is so before the call of this line."""
        thread, (_, call, *arguments) = self.thread(line), line.split()
        if call in ("code", "name"):
            return thread.words() | words_of_event(arguments[0])
        if not arguments or call == "run":
            return thread.words()
        there = thread.sets.get(int(arguments[0]))
        found = (
            thread.words()
            | (there.words() if there else {"absent"})
            | self.argument_words(call, there, arguments)
        )
        if (
            there
            and not there.runs
            and any(each.runs and each.bound == there.bound for each in thread.sets.values())
        ):
            found.add("beside one that runs")
        return found

    @staticmethod
    def argument_words(call: str, there: SetState | None, arguments: list[str]) -> set[str]:
        if call in ("add", "remove", "overflow"):
            found = words_of_event(arguments[1]) | (
                there.words_of_event(arguments[1]) if there else set()
            )
            if call == "overflow":
                threshold = int(arguments[2])
                found.add(
                    "zero" if not threshold else "small" if threshold < LEAST_THRESHOLD else "large"
                )
            return found
        number = int(arguments[1]) if len(arguments) > 1 else 0
        if call == "domain":
            return {"a domain" if number in DOMAINS else "no domain"} | (
                {"the user's"} if number == USER else set()
            )
        if call == "component":
            same = there is not None and number == there.component
            return {
                "no component" if number >= MOST_COMPONENTS else "its own" if same else "another"
            }
        return set()

    def after(self, line: str, refused: bool, number: str = "") -> None:
        """Takes what a call did. `number` is that of a created set."""
        thread, (_, call, *arguments) = self.thread(line), line.split()
        if call in ("create", "register") and not refused:
            thread.is_known = True
        if call == "create" and not refused:
            thread.sets[int(number)] = SetState()
        elif call == "register":
            thread.is_registered = True
        elif call == "unregister" and not refused:
            thread.is_known = thread.is_registered = False
            for each in thread.sets.values():
                each.is_lost = True
        elif call == "destroy" and not refused:
            thread.sets.pop(int(arguments[0]), None)
        elif arguments and arguments[0].isdecimal() and int(arguments[0]) in thread.sets:
            change(thread.sets[int(arguments[0])], call, arguments[1:], refused)


def change(one: SetState, call: str, arguments: list[str], refused: bool) -> None:
    if call == "add" and one.bound is None and not one.is_lost:
        one.bound = component_of(arguments[0])
    if refused:
        return
    if call == "add":
        one.events.append(arguments[0])
        one.component = one.bound
    elif call == "component":
        one.bound = one.component = int(arguments[0])
    elif call == "remove":
        one.is_moved |= one.events[-1:] != arguments[:1] or arguments[0] in USER_EVENTS
        one.events = [each for each in one.events if each != arguments[0]]
        one.thresholds.discard(arguments[0])
    elif call == "cleanup":
        one.empty()
    elif call == "multiplex":
        one.takes_turns = True
    elif call == "overflow":
        (one.thresholds.discard if arguments[1] == "0" else one.thresholds.add)(arguments[0])
    elif call in ("start", "stop"):
        one.runs = call == "start"
