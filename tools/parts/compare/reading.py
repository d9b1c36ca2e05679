"""JSON of a file that somebody else wrote: bounded, no name twice, each fault by its place."""

from __future__ import annotations

import json
from dataclasses import dataclass
from typing import Any, Callable, NoReturn

from formats.texts import shown
from parts.command import MOST_BYTES, Fault, read_bytes
from parts.compare.sides import unfit

MOST_DIGITS = 40  # of a count


@dataclass(frozen=True)
class Place:
    """A value of a file, and the way to it."""

    file: str
    way: str
    value: Any

    def fault(self, what: str) -> NoReturn:
        raise unfit(f"{self.file}: {self.way}: {what}" if self.way else f"{self.file}: {what}")

    def _inner(self, name: str, value: Any) -> Place:
        return Place(self.file, f"{self.way}: {name}" if self.way else name, value)

    def has(self, name: str) -> bool:
        return isinstance(self.value, dict) and name in self.value

    def at(self, name: str) -> Place:
        """The value of this name in an object."""
        if not self.has(name):
            self.fault(f"there is no {name}" if isinstance(self.value, dict) else "not an object")
        return self._inner(name, self.value[name])

    def items(self) -> list[tuple[str, Place]]:
        """The values of an object by their names."""
        if not isinstance(self.value, dict):
            self.fault("not an object")
        return [(name, self._inner(name, value)) for name, value in self.value.items()]

    def each(self) -> list[Place]:
        """The values of a list, numbered from 1."""
        if not isinstance(self.value, list):
            self.fault("not a list")
        return [self._inner(str(number), value) for number, value in enumerate(self.value, 1)]

    def text(self) -> str:
        if not isinstance(self.value, str):
            self.fault("not a text")
        return self.value

    def text_or_none(self) -> str | None:
        return None if self.value is None else self.text()

    def number(self) -> int:
        """A whole number: the formula of an event may give one below 0."""
        if type(self.value) is not int:
            self.fault("not a whole number")
        return self.value


def _number(digits: str) -> int:
    if len(digits) > MOST_DIGITS:
        raise ValueError(f"a number of {len(digits)} digits")
    return int(digits)


def _object(pairs: list[tuple[str, Any]]) -> dict[str, Any]:
    made: dict[str, Any] = {}
    for name, value in pairs:
        if name in made:
            raise ValueError(f"a name that stands twice: {shown(name)}")
        made[name] = value
    return made


def _no_number(text: str) -> NoReturn:
    raise ValueError(f"{text} is no number")


def read_json(
    file: str, most: int = MOST_BYTES, read: Callable[[str, int], bytes] = read_bytes
) -> tuple[Place, int]:
    """What a file says, and how many bytes it has."""
    try:
        content = read(file, most)
        value = json.loads(
            content.decode("utf-8"),
            object_pairs_hook=_object,
            parse_int=_number,
            parse_constant=_no_number,
        )
    except Fault as fault:
        raise unfit(str(fault)) from None
    except UnicodeDecodeError:
        raise unfit(f"{file}: not a text in UTF-8") from None
    except json.JSONDecodeError as error:
        raise unfit(f"{file}: line {error.lineno}: not JSON: {error.msg}") from None
    except ValueError as error:
        raise unfit(f"{file}: not to be used: {error}") from None
    except RecursionError:
        raise unfit(f"{file}: nested too deep") from None
    except MemoryError:
        raise unfit(f"{file}: there is not enough memory for it") from None
    return Place(file, "", value), len(content)
