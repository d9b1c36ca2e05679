"""Event sets: events that are counted together (PAPI_create_eventset(3) and the calls after it)."""

from __future__ import annotations

import ctypes
import threading
import weakref
from contextlib import contextmanager
from enum import IntFlag
from types import TracebackType
from typing import Any, Callable, Iterable, Iterator, Union

from .binding import (
    MOST,
    NULL_SET,
    OPTION_DOMAIN,
    OPTION_MULTIPLEX,
    OVERFLOW_HANDLER,
    RUNNING,
    DomainOption,
    MultiplexOption,
    Option,
    call,
    has_raised,
    keep_raised,
    text_of,
)
from .errors import EINVAL, ENOEVNT, ENOINIT, PapiError
from .events import code_of
from .forgotten import free, free_forgotten, watch
from .library import begun

# Called with the name of the event whose count passed its threshold, and the address of the
# occurrence.
Handler = Callable[[str, int], None]
Names = Union[str, Iterable[str]]  # a name, or several


def _check_int(call_name: str, number: int, least: int) -> None:
    """`EINVAL` if C would take a number for another one, or for no number."""
    if not least <= number <= MOST:
        raise EINVAL(call_name, f"not a number from {least} to {MOST}: {number}")


def _texts(names: Iterable[Names]) -> list[str]:
    """The names one after the other. TypeError if one is no text."""
    found: list[object] = []
    for name in names:
        found += (
            [name] if isinstance(name, (str, bytes)) or not isinstance(name, Iterable) else name
        )
    for each in found:
        if not isinstance(each, str):
            raise TypeError(
                f"kistalub: {each!r} is no name of an event: a name is a text, and a set is made "
                "by EventSet('INST_RETIRED', 'CYCLES') or by EventSet of a list of names"
            )
    return [each for each in found if isinstance(each, str)]


class Domain(IntFlag):
    """Which occurrences a set counts: those in user mode, in kernel mode, or both."""

    USER = 1
    KERNEL = 2


class EventSet:
    """A set of events, which counts from `start` to `stop`: `with EventSet("INST_RETIRED",
    "CYCLES") as events:`. Leaving it stops and destroys the set.

    Counts are dictionaries, a number for each event by the name that it was added with, in the
    order in which they were added. A set belongs to the thread that made it: its calls in others
    raise `ENOEVST`. The README's limits say how many sets a thread has, and how many events a set.

    A `multiplexed` set takes events that do not fit on the counters together. They take turns of
    `slice_ns` nanoseconds of the model's clock, each an occurrence at the usual 1000 MHz (0: the
    library's slice, KISTALUB_SLICE), and counts are estimates. `domain` is which occurrences count,
    the library's if it is None.

    A set that nobody has any more is stopped and freed, with a ResourceWarning.

    `ENOINIT` without a library, and what `add` raises.
    """

    def __init__(
        self, *names: Names, multiplexed: bool = False, slice_ns: int = 0,
        domain: Domain | None = None,
    ):
        self._names: list[str] = []
        self._codes: list[int] = []
        self._handlers: dict[str, Handler] = {}
        self._number = ctypes.c_int(NULL_SET)
        free_forgotten()
        call("PAPI_create_eventset", ctypes.byref(self._number))
        self._library = begun()
        watch(self, self._number, self._library)
        try:
            if multiplexed:
                _check_int("PAPI_set_opt", slice_ns, 0)
                call(
                    "PAPI_set_opt", OPTION_MULTIPLEX,
                    Option(multiplex=MultiplexOption(self.number, slice_ns, 0)),
                )
            if domain is not None:
                call(
                    "PAPI_set_opt", OPTION_DOMAIN,
                    Option(domain=DomainOption(0, self.number, int(domain))),
                )
            self.add(*names)
        except BaseException:
            self.close()
            raise

    @property
    def number(self) -> int:
        """The number of the set in PAPI's calls. `ENOINIT` if the set was closed, or its library
        has ended."""
        if self._number.value == NULL_SET or self._library != begun():
            raise ENOINIT("EventSet", "the set is closed, or its library has ended")
        return self._number.value

    @property
    def events(self) -> tuple[str, ...]:
        """The names of the events, in the order of their counts."""
        return tuple(self._names)

    @property
    def running(self) -> bool:
        """Whether the set counts."""
        state = ctypes.c_int(0)
        call("PAPI_state", self.number, ctypes.byref(state))
        return bool(state.value & RUNNING)

    def add(self, *names: Names) -> None:
        """Adds events, one after the other. `ENOEVNT` if there is no such event, `ECNFLCT` if it
        does not fit on the counters, `EINVAL` if the set has it or is full, `EISRUN` if the set
        runs. Those before the refused one stay."""
        for name in _texts(names):
            call("PAPI_add_named_event", self.number, text_of(name))
            self._names.append(name)
            self._codes.append(code_of(name))

    def remove(self, *names: Names) -> None:
        """Removes events by any of their names. `ENOEVNT` if the set has none of this name,
        `EISRUN` if it runs."""
        for name in _texts(names):
            place = self._place_of(name)
            own = self._names[place]
            call("PAPI_remove_named_event", self.number, text_of(own))
            del self._names[place], self._codes[place]
            self._handlers.pop(own, None)

    def start(self) -> None:
        """Begins to count, from 0. `EISRUN` if the set runs, `ECNFLCT` if another running set has
        the counters, `EINVAL` if the set is empty."""
        free_forgotten()
        call("PAPI_start", self.number)

    def stop(self) -> dict[str, int]:
        """Ends counting, and gives the counts. `ENOTRUN` if the set does not run."""
        return self._counted("PAPI_stop")

    def read(self) -> dict[str, int]:
        """The counts so far, or those of the last run."""
        return self._counted("PAPI_read")

    def read_into(self, values: Any) -> None:
        """Writes the counts so far to a buffer of 64-bit integers, in the order of the events: an
        `array("q", ..)`, or a row of an array of NumPy. TypeError if it is no such buffer,
        ValueError if it has too little room."""
        view = memoryview(values)
        if (
            view.readonly or view.format not in ("q", "l") or view.itemsize != 8
            or not view.c_contiguous
        ):
            raise TypeError(
                "kistalub: counts are written to 64-bit integers that stand side by side, such as "
                "numpy.zeros(len(events), 'int64')"
            )
        if view.nbytes < 8 * len(self):
            raise ValueError(
                f"kistalub: there is room for {view.nbytes // 8} counts, and the set has "
                f"{len(self)}"
            )
        call("PAPI_read", self.number, (ctypes.c_longlong * len(self)).from_buffer(view))

    def accumulate(self, totals: dict[str, int]) -> None:
        """Adds the counts to the numbers of the events in `totals` (0 if one is not there), and
        counts from 0 again."""
        values = self._values(totals)
        call("PAPI_accum", self.number, values)
        totals.update(zip(self._names, values))

    def reset(self) -> None:
        """Counts from 0 again."""
        call("PAPI_reset", self.number)

    @contextmanager
    def counting(self) -> Iterator[dict[str, int]]:
        """Counts what happens in a block: `with events.counting() as counts:`. The dictionary is
        empty in the block, and has the counts after it."""
        counts: dict[str, int] = {}
        self.start()
        try:
            yield counts
        finally:
            counts.update(self.stop())

    def on_overflow(self, name: str, threshold: int, handler: Handler) -> None:
        """`handler(name, address)` is called each time that the count of the event passes a
        multiple of `threshold` (256 to 2147483647), before the next occurrence. While it runs time
        stands: it may read sets, and `go` raises `EISRUN`. What it raises ends the handlers, and is
        raised by the call in which time went on.

        `ENOEVNT` if the event is not in the set, `EINVAL` if the threshold is not in its range or
        the event is derived, `ECOMBO` if the set is multiplexed, `EISRUN` if it runs.
        """
        own = self._names[self._place_of(name)]
        if not callable(handler):
            raise TypeError(
                f"kistalub: a handler is called with a name and an address, and {handler!r} can't "
                "be: end_overflow takes a threshold away"
            )
        _check_int("PAPI_overflow", threshold, 1)
        call("PAPI_overflow", self.number, code_of(own), threshold, 0, _handler)
        self._handlers[own] = handler
        _watched.sets[self.number] = self

    def end_overflow(self, name: str) -> None:
        """Takes the threshold of an event away. `ENOEVNT` if the event is not in the set, `EINVAL`
        if it has none, `EISRUN` if the set runs."""
        own = self._names[self._place_of(name)]
        call("PAPI_overflow", self.number, code_of(own), 0, 0, _handler)
        self._handlers.pop(own, None)

    def close(self) -> None:
        """Stops the set if it runs, and destroys it. A set that is closed, or whose library has
        ended, stays as it is."""
        if self._number.value == NULL_SET or self._library != begun():
            return
        _watched.sets.pop(self._number.value, None)
        try:
            free(self._number)
        except ENOINIT:
            self._number.value = NULL_SET

    def _place_of(self, name: str) -> int:
        """The place of the event that a name stands for, as PAPI takes names: in any case, with its
        component or without it. `ENOEVNT` if the set has none."""
        if name in self._names:
            return self._names.index(name)
        code = code_of(name)
        if code not in self._codes:
            raise ENOEVNT("EventSet", f"the set has no event {name!r}")
        return self._codes.index(code)

    def _values(self, totals: dict[str, int]) -> ctypes.Array[ctypes.c_longlong]:
        """A number for each event, from `totals` or 0. There is room for one at least."""
        return (ctypes.c_longlong * max(len(self._names), 1))(
            *(totals.get(name, 0) for name in self._names)
        )

    def _counted(self, name: str) -> dict[str, int]:
        values = self._values({})
        call(name, self.number, values)
        return dict(zip(self._names, values))

    def _tell(self, vector: int, address: int) -> None:
        """Calls the handlers of the events whose thresholds were passed: bit N of the vector stands
        for the event in place N."""
        for place, name in enumerate(self.events):
            if vector >> place & 1 and name in self._handlers and not has_raised():
                try:
                    self._handlers[name](name, address)
                except BaseException as error:
                    keep_raised(error)

    def __enter__(self) -> EventSet:
        return self

    def __exit__(
        self, kind: type[BaseException] | None, error: BaseException | None,
        trace: TracebackType | None,
    ) -> None:
        self.close()

    def __len__(self) -> int:
        return len(self._names)

    def __contains__(self, name: object) -> bool:
        try:
            return isinstance(name, str) and self._place_of(name) >= 0
        except (PapiError, ValueError):
            return False

    def __iter__(self) -> Iterator[str]:
        return iter(self.events)

    def __repr__(self) -> str:
        return f"EventSet({', '.join(map(repr, self._names))})"


class _Watched(threading.local):
    """The sets of the thread that have handlers, by their numbers."""

    def __init__(self) -> None:
        self.sets: weakref.WeakValueDictionary[int, EventSet] = weakref.WeakValueDictionary()


_watched = _Watched()


def _on_passing(number: int, address: int | None, vector: int, context: int | None) -> None:
    """What C calls for a set."""
    events = _watched.sets.get(number)
    if events is not None:
        events._tell(vector, address or 0)


_handler = OVERFLOW_HANDLER(_on_passing)  # C keeps it, so it lives as long as the process
