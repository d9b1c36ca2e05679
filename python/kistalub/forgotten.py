"""Sets that nobody has any more: each is stopped and freed by the thread that made it."""

from __future__ import annotations

import ctypes
import threading
import warnings
import weakref
from collections import deque
from contextlib import suppress
from typing import Deque, Tuple

from .binding import NULL_SET, RUNNING, call
from .errors import PapiError
from .library import begun

Waiting = Deque[Tuple[ctypes.c_int, int]]  # numbers of sets, and their libraries


class _Own(threading.local):
    """The sets of a thread that wait to be freed."""

    def __init__(self) -> None:
        self.waiting: Waiting = deque()


_own = _Own()


def watch(owner: object, number: ctypes.c_int, library: int) -> None:
    """Once nobody has the owner any more, its set is freed. A library ends what is left of its."""
    weakref.finalize(owner, _forget, _own.waiting, number, library).atexit = False


def free(number: ctypes.c_int) -> None:
    """Stops a set if it runs, and destroys it: its number is that of none after that."""
    state = ctypes.c_int(0)
    call("PAPI_state", number, ctypes.byref(state))
    if state.value & RUNNING:
        call("PAPI_stop", number, (ctypes.c_longlong * max(call("PAPI_num_events", number), 1))())
    call("PAPI_cleanup_eventset", number)
    call("PAPI_destroy_eventset", ctypes.byref(number))


def free_forgotten() -> None:
    """Frees the sets of this thread that were forgotten, also by other threads."""
    while _own.waiting:
        number, library = _own.waiting.popleft()
        if library == begun():
            with suppress(PapiError):
                free(number)


def _forget(waiting: Waiting, number: ctypes.c_int, library: int) -> None:
    """A set is its thread's: in another one it waits for the next set that its thread makes or
    starts."""
    if number.value == NULL_SET or library != begun():
        return
    waiting.append((number, library))
    free_forgotten()
    advice = "with EventSet(..) as events: closes it"
    warnings.warn(f"kistalub: an EventSet was not closed: {advice}", ResourceWarning, stacklevel=2)
