"""What a unit that make_unit writes does not say, name by name and with the reason."""

from __future__ import annotations

import textwrap
from collections import Counter
from dataclasses import dataclass, field

from parts.command import counted

SAYABLE_MODIFIERS = ("u", "k", "e", "i", "c")
LINE_WIDTH = 150


class LeftOut(Exception):
    """Why a name cannot be said in a unit file."""


@dataclass
class Account:
    """What was left out: each name with its reason, and each modifier with the number of its
    events."""

    names: dict[str, str] = field(default_factory=dict)
    halves: list[str] = field(default_factory=list)
    # beside one of these a thread has half of the programmable counters (errata BJ122, BV98, HSD29)
    exclusive: list[str] = field(default_factory=list)
    pairs: list[str] = field(default_factory=list)  # each of these takes two counters
    # events that share registers, by the counters to which they are kept
    kept: dict[frozenset[int], list[str]] = field(default_factory=dict)
    modifiers: Counter[str] = field(default_factory=Counter)
    combinations: int = 0
    lacking_modifiers: int = 0
    counters_known: int = 0
    codes: int = 0

    def leave_out(self, name: str, reason: str) -> None:
        self.names[name] = reason

    def take_half(self, name: str) -> None:
        """A name whose code has a second register, which a unit file cannot say."""
        self.halves.append(name)

    def keep(self, name: str, counters: frozenset[int]) -> None:
        self.kept.setdefault(counters, []).append(name)

    def not_said(self, programmable: int) -> list[str]:
        """Which sets the unit takes that Linux refuses, by sentences without a full stop."""
        lines: list[str] = []
        if self.exclusive:
            lines.append(
                f"beside one of {counted(len(self.exclusive), 'name')} of "
                f"{_events_of(self.exclusive)} Linux lets a thread of a core with hyperthreading "
                f"count on {programmable // 2} of its {programmable} programmable counters (errata "
                "BJ122, BV98, HSD29). A unit cannot say that, so this one takes sets that Linux "
                f"refuses; with --counters {programmable // 2} it takes none of them"
            )
        if self.pairs:
            lines.append(
                f"each of {counted(len(self.pairs), 'name')} of {_events_of(self.pairs)} takes two "
                "counters, one with an even number and the next one. A unit can say the first of "
                "them alone, so this one takes sets of more counters than there are, which Linux "
                "refuses"
            )
        return lines

    def count_modifiers(self, modifiers: set[str]) -> None:
        self.modifiers.update(modifiers - set(SAYABLE_MODIFIERS))
        self.lacking_modifiers += not modifiers.issuperset(SAYABLE_MODIFIERS)

    def lines(self, with_files: bool) -> list[str]:
        lines: list[str] = []
        for reason in sorted(set(self.names.values())):
            names = [name for name, why in self.names.items() if why == reason]
            lines += [f"left out: {counted(len(names), 'name')}: {reason}"] + _wrapped(names)
        if self.halves:
            lines.append(
                (
                    f"taken without its second register: {counted(len(self.halves), 'name')}: a "
                    "unit file cannot say the register's value, so all of one code count the same"
                )
                + (
                    "" if self.kept
                    else (
                        ", nor that a core has the register once, so the unit takes two of them "
                        "together that a core does not"
                    )
                )
            )
            lines += _wrapped(self.halves)
        for counters, names in self.kept.items():
            places = " ".join(f"P{number}" for number in sorted(counters))
            lines.append(f"kept to {places}: {counted(len(names), 'name')} of {_events_of(names)}, "
                         f"for whose values a core has {counted(len(counters), 'register')}. "
                         "Two of one value, which Linux takes on one register, need two here")
        if self.combinations:
            lines.append(
                f"left out: {counted(self.combinations, 'pair')} of umasks that libpfm4 combines"
            )
        lines += [
            f"left out: modifier {name} of {counted(count, 'event')}"
            for name, count in sorted(self.modifiers.items())
        ]
        if self.lacking_modifiers:
            lacking = counted(self.lacking_modifiers, "event")
            lines.append(
                f"taken all the same: the modifiers {' '.join(SAYABLE_MODIFIERS)}, of which "
                f"libpfm4 lacks some for {lacking}"
            )
        if with_files:
            lines.append(
                f"counters: {self.counters_known:,} of {self.codes:,} codes have theirs in the "
                "event files"
            )
        return lines


def _events_of(names: list[str]) -> str:
    """The events of some names."""
    events = list(dict.fromkeys(name.partition(":")[0] for name in names))
    return ", ".join(events[:-1]) + (" and " if events[1:] else "") + events[-1]


def _wrapped(names: list[str]) -> list[str]:
    return textwrap.wrap(
        " ".join(names), LINE_WIDTH, initial_indent="  ", subsequent_indent="  ",
        break_long_words=False, break_on_hyphens=False,
    )
