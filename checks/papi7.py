"""Carries out scripts of this project's form on the installed PAPI 7, by the calls of its manual
pages.

Scripts come on standard input without thread numbers, with an empty line after each. For each line
there is one line with the name of PAPI's code and what it gave. `names` are those of the header
`papi.h` of package libpapi-dev.
"""

from __future__ import annotations

import ctypes
import re
import sys
from ctypes import CFUNCTYPE, byref, c_int, c_longlong, c_void_p, create_string_buffer
from typing import Callable, Iterable

LIBRARY = "libpapi.so.7.0"
HEADER = "/usr/include/papi.h"
VERSION = 7 << 24
MOST_VALUES = 32
HANDLER = CFUNCTYPE(None, c_int, c_void_p, c_longlong, c_void_p)


class NotInstalled(Exception):
    """PAPI or its header is not there, or it does not start."""


def code_names() -> dict[int, str]:
    """The names of PAPI's codes: the first that the header has for a number."""
    try:
        with open(HEADER, encoding="utf-8", errors="replace") as header:
            rows = re.findall(
                r"^#define\s+(PAPI_(?:OK|E[A-Z_]+))\s+(-?\d+)\s", header.read(), re.MULTILINE
            )
    except OSError:
        raise NotInstalled("libpapi-dev is not installed") from None
    names: dict[int, str] = {}
    for name, number in rows:
        names.setdefault(int(number) if name == "PAPI_OK" else -abs(int(number)), name)
    return names


class Papi7:
    """The library, and the sets of one script under their numbers from 0."""

    def __init__(self) -> None:
        self.names = code_names()
        try:
            self.library = ctypes.CDLL(LIBRARY)
        except OSError:
            raise NotInstalled("libpapi7.0 is not installed") from None
        if self.library.PAPI_library_init(VERSION) != VERSION:
            raise NotInstalled("PAPI 7 does not start here")
        self.sets: list[c_int] = []
        self.handler = HANDLER(lambda event_set, address, events, context: None)
        self.values = (c_longlong * MOST_VALUES)()
        self.sums = (c_longlong * MOST_VALUES)()  # the caller's values of accum

    def carry_out(self, script: Iterable[str]) -> list[str]:
        self.sums = (c_longlong * MOST_VALUES)()
        replies = [self._call(*line.split()) for line in script]
        for number in range(len(self.sets)):
            self.library.PAPI_stop(self._set(number), self.values)
            self.library.PAPI_cleanup_eventset(self._set(number))
            self.library.PAPI_destroy_eventset(byref(self.sets[number]))
        self.sets.clear()
        return replies

    def _call(self, call: str, *words: str) -> str:
        method: Callable[..., tuple[int, str]] = getattr(self, f"_{call}")
        status, given = method(*words)
        return " ".join(
            [self.names.get(status, str(status))] + ([given] if given and status == 0 else [])
        )

    def _set(self, number: int | str) -> c_int:
        place = int(number)
        return c_int(self.sets[place].value if place < len(self.sets) else 1000 + place)

    def _code(self, event: str) -> tuple[int, str]:
        code = c_int()
        status = self.library.PAPI_event_name_to_code(event.encode(), byref(code))
        return status, f"{code.value & 0xFFFFFFFF:#010x}"

    def _name(self, code: str) -> tuple[int, str]:
        text = create_string_buffer(1024)
        status = self.library.PAPI_event_code_to_name(c_int(int(code, 16)), text)
        return status, text.value.decode()

    def _create(self) -> tuple[int, str]:
        number = c_int(-1)
        status = self.library.PAPI_create_eventset(byref(number))
        self.sets.append(number)
        return status, ""

    def _destroy(self, event_set: str) -> tuple[int, str]:
        return self.library.PAPI_destroy_eventset(byref(self._set(event_set))), ""

    def _cleanup(self, event_set: str) -> tuple[int, str]:
        return self.library.PAPI_cleanup_eventset(self._set(event_set)), ""

    def _add(self, event_set: str, event: str) -> tuple[int, str]:
        return self.library.PAPI_add_named_event(self._set(event_set), event.encode()), ""

    def _remove(self, event_set: str, event: str) -> tuple[int, str]:
        return self.library.PAPI_remove_named_event(self._set(event_set), event.encode()), ""

    def _component(self, event_set: str, component: str) -> tuple[int, str]:
        return self.library.PAPI_assign_eventset_component(self._set(event_set), int(component)), ""

    def _multiplex(self, event_set: str, slice_length: str) -> tuple[int, str]:
        return self.library.PAPI_set_multiplex(self._set(event_set)), ""

    def _overflow(self, event_set: str, event: str, threshold: str) -> tuple[int, str]:
        code = c_int()
        self.library.PAPI_event_name_to_code(event.encode(), byref(code))
        return (
            self.library.PAPI_overflow(self._set(event_set), code, int(threshold), 0, self.handler),
            "",
        )

    def _start(self, event_set: str) -> tuple[int, str]:
        return self.library.PAPI_start(self._set(event_set)), ""

    def _stop(self, event_set: str) -> tuple[int, str]:
        return self._with_values(self.library.PAPI_stop, event_set, self.values)

    def _read(self, event_set: str) -> tuple[int, str]:
        return self._with_values(self.library.PAPI_read, event_set, self.values)

    def _accum(self, event_set: str) -> tuple[int, str]:
        return self._with_values(self.library.PAPI_accum, event_set, self.sums)

    def _with_values(
        self, call: Callable[..., int], event_set: str, values: ctypes.Array[c_longlong]
    ) -> tuple[int, str]:
        status = call(self._set(event_set), values)
        count = self.library.PAPI_num_events(self._set(event_set))
        return status, " ".join(str(values[place]) for place in range(max(count, 0)))

    def _reset(self, event_set: str) -> tuple[int, str]:
        return self.library.PAPI_reset(self._set(event_set)), ""

    def _state(self, event_set: str) -> tuple[int, str]:
        state = c_int()
        status = self.library.PAPI_state(self._set(event_set), byref(state))
        return status, f"{state.value:#04x}"

    def _run(self, count: str) -> tuple[int, str]:
        """Some work, so that something is counted."""
        sum(range(10_000))
        return 0, ""


def main() -> None:
    papi = Papi7()
    for script in sys.stdin.read().strip("\n").split("\n\n"):
        print("\n".join(papi.carry_out(script.splitlines())), end="\n\n", flush=True)


if __name__ == "__main__":
    try:
        main()
    except NotInstalled as reason:
        sys.exit(f"papi7: {reason}")
