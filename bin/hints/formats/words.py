"""The words of a call, split as the program splits them, and what is wrong with them."""

from __future__ import annotations

import re
from dataclasses import dataclass, field

from .forms import Form, Option, Place, limits_of
from .texts import near, shown

MOST_EVENTS = 32
CPU = re.compile(r"(?! )[ -+\--~]{1,64}(?<! )")
EVENTS = re.compile(r"[!-~]+")


@dataclass
class Words:
    """The values of the options, those that lack theirs, the words that are none, and what could
    not be split."""

    options: dict[str, str] = field(default_factory=dict)
    lacking: set[str] = field(default_factory=set)
    others: list[str] = field(default_factory=list)
    faults: list[str] = field(default_factory=list)

    @classmethod
    def read(cls, form: Form, words: list[str]) -> Words:
        read = cls()
        rest = list(words)
        while rest:
            word = rest.pop(0)
            if word == "--":
                read.others += rest
                break
            if word.startswith("-") and word != "-":
                read._take_option(form, word, rest)
            else:
                read.others.append(word)
        return read

    def _take_option(self, form: Form, word: str, rest: list[str]) -> None:
        name, attached = _name_and_value(word)
        option = form.options.get(name)
        if option is None:
            self.faults.append(_unknown_option(form, name))
        elif name in self.options or name in self.lacking:
            self.faults.append(f"{name} stands twice")
            if option.value and attached is None and rest and not rest[0].startswith("-"):
                rest.pop(0)
        elif option.value:
            self._take_value(form, option, attached, rest)
        elif attached is None:
            self.options[name] = ""
        elif word.startswith("--"):
            self.faults.append(f"{name} takes no value")
        else:  # several short options in one word
            self.options[name] = ""
            self._take_option(form, f"-{attached}", rest)

    def _take_value(
        self, form: Form, option: Option, attached: str | None, rest: list[str]
    ) -> None:
        if attached is not None:
            self.options[option.word] = attached
        elif rest and (rest[0] == "-" or not rest[0].startswith("-")):
            self.options[option.word] = rest.pop(0)
        else:
            self.lacking.add(option.word)
            is_value = rest and _name_and_value(rest[0])[0] not in form.options
            self.faults.append(
                _dashed_value(option, rest.pop(0)) if is_value
                else f"{option.word} has no {option.value}"
            )


def _unknown_option(form: Form, name: str) -> str:
    if name == "--help":
        return "--help prints the usage if it stands first"
    meant = next(
        (option for option in form.options.values() if option.value == name.lstrip("-").upper()),
        None,
    )
    return f"{form.tool} has no option {shown(name)}" + (
        f" (near: {meant.text()})" if meant else near(name, form.options)
    )


def _dashed_value(option: Option, value: str) -> str:
    """What is wrong if a word that begins with - stands where a value is wanted."""
    if _is_number(option.value):
        return _number_faults(option.word, option.value, option.meaning, value)[0]
    attached = f"{option.word}={value}" if option.word.startswith("--") else f"{option.word}{value}"
    return (
        f"{option.word} has no {option.value}: a value that begins with - is attached, {attached}"
    )


def _is_number(name: str) -> bool:
    """Whether the values of this name are numbers."""
    return len(name) == 1 or name == "SIZE"


def _name_and_value(word: str) -> tuple[str, str | None]:
    """`--workers=4`, `-Ufile` and `-U=file` have their values in the word."""
    if word.startswith("--"):
        name, equals, value = word.partition("=")
        return name, value if equals else None
    value = word[2:]
    return word[:2], value[1:] if value.startswith("=") else value or None


def word_faults(form: Form, read: Words) -> list[str]:
    """What is wrong with the words, as far as it can be said."""
    faults = list(read.faults)
    for option in form.options.values():
        faults += _option_faults(form, option, read)
    faults += _place_faults(form, read.others)
    return faults or _too_large(form, read)


def _too_large(form: Form, read: Words) -> list[str]:
    """If nothing else is wrong: the numbers whose meaning names no range."""
    numbers = [
        form.options[word] for word in read.options
        if _is_number(form.options[word].value) and not limits_of(form.options[word].meaning)
    ]
    return [
        f"{option.word} {shown(read.options[option.word])}: the number is too large"
        for option in numbers
    ]


def _option_faults(form: Form, option: Option, read: Words) -> list[str]:
    value = read.options.get(option.word)
    if option.word in read.lacking:
        return []
    if value is None:
        if option.is_needed:
            return [f"{option.text()} is missing: {_short(option.meaning)}"]
        if option.partner in read.options or option.partner in read.lacking:
            return [
                f"{option.text()} is missing: {form.options[option.partner].text()} goes with it"
            ]
        return []
    if not option.value:
        return []
    if option.word == "-C" and not CPU.fullmatch(value):
        return [
            f"-C {shown(value)}: a processor's name has 1 to 64 printable characters, no comma, "
            "and no space at its ends"
        ]
    if option.word == "--events":
        return _event_faults(value)
    return _number_faults(option.word, option.value, option.meaning, value)


def _event_faults(value: str) -> list[str]:
    events = value.split(",")
    if len(events) > MOST_EVENTS:
        return [f"--events: {len(events)} events, and at most {MOST_EVENTS} are counted"]
    if not all(EVENTS.fullmatch(event) for event in events):
        return ["--events: names with one comma between two, and no spaces"]
    return []


def _number_faults(word: str, name: str, meaning: str, value: str) -> list[str]:
    """For a word whose value is a number."""
    limits = limits_of(meaning)
    if not _is_number(name):
        return []
    if re.fullmatch(r"\+?0*[0-9]{1,9}", value) and (
        limits is None or limits[0] <= int(value) <= limits[1]
    ):
        return []
    wanted = f"a number from {limits[0]} to {limits[1]}" if limits else "a number"
    return [f"{word} {shown(value)}: {wanted} is wanted"]


def _place_faults(form: Form, others: list[str]) -> list[str]:
    faults = []
    rest = list(others)
    for place in form.places:
        taken, rest = rest[: place.most], rest[place.most :]
        if len(taken) < place.least:
            faults.append(
                f"{place.name} is missing" + (f": {_short(place.meaning)}" if place.meaning else "")
            )
        faults += [fault for word in taken for fault in _word_faults(place, word)]
    if rest:
        faults.append(f"{shown(rest[0])} is one word too many")
    return faults


def _word_faults(place: Place, word: str) -> list[str]:
    choices = place.name.split("|")
    if len(choices) > 1 and word not in choices:
        return [f"{shown(word)} stands where {' or '.join(choices)} is wanted"]
    return _number_faults("SIZE", place.name, place.meaning, word)


def _short(meaning: str) -> str:
    return meaning.partition(";")[0]
