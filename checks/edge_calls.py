"""Makes the calls of `edges` on a library: edge_calls LIBRARY EVENT EVENT, with a call a line on
standard input, `STATE FUNCTION ARGUMENT..`. Each has a process of its own, which brings the library
into the state first. One line is the answer to each: a number, or how the process ended."""

from __future__ import annotations

import ctypes
import os
import signal
import sys
from ctypes import byref, c_char_p, c_int, c_longlong, c_void_p, create_string_buffer
from typing import Any, Callable

VERSION = 7 << 24
NOTHING = -1  # PAPI_NULL
ROOM = 1 << 16  # bytes for any structure
SECONDS = 10
HANDLER = ctypes.CFUNCTYPE(None, c_int, c_void_p, c_longlong, c_void_p)
TAKE_NOTHING = HANDLER(lambda *told: None)
TAKE_TIME = ctypes.CFUNCTYPE(ctypes.c_ulong)(lambda: 7)


class State:
    """A library in a state, and the set that a call is about."""

    def __init__(self, library: str, events: list[str]) -> None:
        self.library = ctypes.CDLL(library)
        self.events = events
        self.set = c_int(NOTHING)
        self.values = (c_longlong * 64)()
        self.room = create_string_buffer(ROOM)

    def done(self, answer: int) -> None:
        if answer < 0:
            raise RuntimeError(f"the state is not reached: {answer}")

    def code(self, name: str) -> int:
        code = c_int(0)
        self.done(self.library.PAPI_event_name_to_code(name.encode(), byref(code)))
        return code.value

    def reach(self, state: str) -> None:
        steps = STATES[state]
        for step in steps:
            self.done(step(self))

    def argument(self, word: str) -> Any:
        if word.lstrip("-").isdecimal():
            return c_int(int(word))
        return ARGUMENTS[word](self)

    def call(self, function: str, words: list[str]) -> int:
        return int(getattr(self.library, function)(*map(self.argument, words)))


def _event(place: int) -> Callable[[State], Any]:
    return lambda state: c_int(state.code(state.events[place]))


def _array(state: State) -> Any:
    return (c_int * 2)(*map(state.code, state.events))


ARGUMENTS: dict[str, Callable[[State], Any]] = {
    "set": lambda state: state.set,
    "setp": lambda state: byref(state.set),
    "newp": lambda state: byref(c_int(NOTHING)),
    "oldp": lambda state: byref(c_int(7)),
    "null": lambda state: None,
    "event": _event(0),
    "other": _event(1),
    "events": _array,
    "name": lambda state: c_char_p(state.events[0].encode()),
    "other-name": lambda state: c_char_p(state.events[1].encode()),
    "no-name": lambda state: c_char_p(b"NO_SUCH_EVENT"),
    "empty": lambda state: c_char_p(b""),
    "preset": lambda state: c_int(-0x80000000 | 0x32),
    "values": lambda state: state.values,
    "room": lambda state: state.room,
    "number": lambda state: byref(c_int(64)),
    "zero": lambda state: byref(c_int(0)),
    "native": lambda state: byref(c_int(0x40000000)),
    "presets": lambda state: byref(c_int(-0x80000000)),
    "handler": lambda state: TAKE_NOTHING,
    "time": lambda state: TAKE_TIME,
}
_begin = lambda state: state.library.PAPI_library_init(VERSION)  # noqa: E731
_create = lambda state: state.library.PAPI_create_eventset(byref(state.set))  # noqa: E731
_add = lambda state: state.library.PAPI_add_event(
    state.set, c_int(state.code(state.events[0]))
)  # noqa: E731
_start = lambda state: state.library.PAPI_start(state.set)  # noqa: E731
_stop = lambda state: state.library.PAPI_stop(state.set, state.values)  # noqa: E731
_end = lambda state: state.library.PAPI_shutdown() or 0  # noqa: E731
STATES: dict[str, list[Callable[[State], int]]] = {
    "unbegun": [],
    "begun": [_begin],
    "created": [_begin, _create],
    "added": [_begin, _create, _add],
    "running": [_begin, _create, _add, _start],
    "stopped": [_begin, _create, _add, _start, _stop],
    "ended": [_begin, _end],
}


def answer(library: str, events: list[str], words: list[str]) -> str:
    reader, writer = os.pipe()
    child = os.fork()
    if not child:
        signal.alarm(SECONDS)
        try:
            state = State(library, events)
            state.reach(words[0])
            os.write(writer, str(state.call(words[1], words[2:])).encode())
        except Exception as error:
            os.write(writer, f"error: {error}".encode())
        os._exit(0)
    os.close(writer)
    with os.fdopen(reader, "rb") as told:
        said = told.read().decode()
    _, status = os.waitpid(child, 0)
    return f"signal {os.WTERMSIG(status)}" if os.WIFSIGNALED(status) else said


def main() -> None:
    library, *events = sys.argv[1:]
    for line in sys.stdin:
        print(answer(library, events, line.split()), flush=True)


if __name__ == "__main__":
    main()
