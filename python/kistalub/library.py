"""A library over files, and its time."""

from __future__ import annotations

import atexit
import ctypes
import os
import warnings
from types import TracebackType
from typing import Union

from .binding import VERSION_7, call, loaded, text_of

MOST_AT_ONCE = 0xFFFFFFFF  # what one call of kistalub_go takes
FilePath = Union[str, "os.PathLike[str]"]


class _Begun:
    """The number of libraries that were begun in this process, to one of which each event set
    belongs, and whether the last one still lasts."""

    number = 0
    lasts = False


def begun() -> int:
    """Which library it is, counted from 1. 0 before the first."""
    return _Begun.number


def is_begun() -> bool:
    """Whether a library is begun and has not ended."""
    return _Begun.lasts


class Library:
    """The library of the process, over a unit file, a preset file for a cpu, and streams: `with
    Library("lab.unit", stream="first.stream"):`.

    In the name of the stream `%t` stands for the number of the thread, from 0. Without a unit the
    files are those of KISTALUB_UNIT, KISTALUB_PRESETS, KISTALUB_CPU and KISTALUB_STREAM. Entering
    it raises `ESYS` if a file is missing or faulty, whose row and cause are said on standard error,
    `EINVAL` if a library is begun already, and `ValueError` if other files are named without a
    unit, or a name has a NUL. Leaving it ends all sets of all threads. It can be entered again.

    It begins when it is entered. One that never was warns when it goes, and one that is not left is
    ended with the process.
    """

    _entered = True  # so that one that could not be made does not warn

    def __init__(
        self, unit: FilePath | None = None, *, presets: FilePath | None = None,
        cpu: str | None = None, stream: FilePath | None = None,
    ):
        if unit is None and (presets is not None or cpu is not None or stream is not None):
            raise ValueError("a library has no presets, cpu or stream without a unit")
        self._unit = unit
        self._others = (presets, cpu, stream)
        self._entered = False

    def __del__(self) -> None:
        if not self._entered:
            warnings.warn(
                "kistalub: this Library never began: with kistalub.Library(..): begins it",
                RuntimeWarning, stacklevel=2,
            )

    def __enter__(self) -> Library:
        self._entered = True
        if self._unit is not None:
            call(
                "kistalub_init",
                *(
                    None if word is None else text_of(os.fsencode(word))
                    for word in (self._unit, *self._others)
                ),
            )
        call("PAPI_library_init", VERSION_7)
        _Begun.number += 1
        _Begun.lasts = True
        return self

    def __exit__(
        self, kind: type[BaseException] | None, error: BaseException | None,
        trace: TracebackType | None,
    ) -> None:
        _end()


@atexit.register
def _end() -> None:
    """Ends the library that lasts, if there is one."""
    if _Begun.lasts:
        _Begun.lasts = False
        loaded().PAPI_shutdown()


def go(count: int | None = None) -> int:
    """Lets time go on in the calling thread: at most `count` occurrences of its stream happen, or
    without a number all that are left.

    The answer is how many happened. Handlers are called meanwhile, and what one raises is raised
    here. `ESYS` if the stream has a faulty line, which is told on standard error, `EISRUN` in a
    handler, `ENOINIT` without a library, `ValueError` if the number is below 0.
    """
    if count is not None and count < 0:
        raise ValueError(f"a number of occurrences is not below 0: {count}")
    happened = 0
    while count is None or happened < count or count == 0:
        step = MOST_AT_ONCE if count is None else min(count - happened, MOST_AT_ONCE)
        went = ctypes.c_uint32(0)
        call("kistalub_go", step, ctypes.byref(went))
        happened += went.value
        if went.value < step or count == 0:
            break
    return happened


def thread(number: int) -> None:
    """The calling thread is the one of this number, from 0, and has its stream. Each thread calls
    it before any other call, if it is to be certain which thread has which stream. The thread that
    began the library is number 0. `EINVAL` if it has another number already, or another thread has
    this one."""
    if not 0 <= number <= MOST_AT_ONCE:
        raise ValueError(f"not a number of a thread: {number}")
    call("kistalub_thread", number)
