"""The shared library: where it is, the types of its functions (papi.h, kistalub.h), and how one is
called."""

from __future__ import annotations

import ctypes
import os
import sys
import threading
from ctypes import POINTER, c_char_p, c_int, c_longlong, c_uint, c_uint32, c_void_p
from functools import lru_cache
from pathlib import Path

from .errors import error_of

NAME = "libpapi.so.7.0"
PREFIXES = (sys.prefix, "/usr/local", "/usr")  # what bin/install was given
VARIABLE = "KISTALUB_LIBRARY"
REMEDY = (
    f"bin/install PREFIX makes one, and {VARIABLE}=PREFIX/lib/kistalub/{NAME} in the environment "
    "says where it is"
)

# The constants of papi.h that are used here.
VERSION_7 = 7 << 24
NULL_SET = -1
PRESET_MASK = -(1 << 31)
NATIVE_MASK = 1 << 30
RUNNING = 0x02
OPTION_MULTIPLEX, OPTION_DOMAIN = 3, 5
ENUM_EVENTS, ENUM_FIRST, ENUM_UMASKS = 0, 1, 15
MOST = (1 << 31) - 1  # the largest int
# lengths of texts in bytes, and how many native events an event has at most
SHORT, LONG, LONGEST, TERMS = 64, 256, 1024, 12

# PAPI_overflow_handler_t: the set, the address of the occurrence, a bit for each place in the set,
# and no context.
OVERFLOW_HANDLER = ctypes.CFUNCTYPE(None, c_int, c_void_p, c_longlong, c_void_p)


class MultiplexOption(ctypes.Structure):
    """PAPI_multiplex_option_t: the set, its slice in nanoseconds of the model's clock, and
    flags."""

    _fields_ = [("eventset", c_int), ("ns", c_int), ("flags", c_int)]


class DomainOption(ctypes.Structure):
    """PAPI_domain_option_t: a component, a set, and the bits of its domain."""

    _fields_ = [("def_cidx", c_int), ("eventset", c_int), ("domain", c_int)]


class Option(ctypes.Union):
    """PAPI_option_t, with room for its largest member."""

    _fields_ = [
        ("multiplex", MultiplexOption), ("domain", DomainOption), ("room", ctypes.c_char * 512),
    ]


class Info(ctypes.Structure):
    """PAPI_event_info_t."""

    _fields_ = [
        ("event_code", c_uint), ("symbol", ctypes.c_char * LONGEST),
        ("short_descr", ctypes.c_char * SHORT), ("long_descr", ctypes.c_char * LONGEST),
        ("component_index", c_int), ("units", ctypes.c_char * SHORT), ("kinds", c_int * 6),
        ("count", c_uint), ("event_type", c_uint),
        ("derived", ctypes.c_char * SHORT), ("postfix", ctypes.c_char * LONG),
        ("code", c_uint * TERMS),
        ("name", ctypes.c_char * LONG * TERMS), ("note", ctypes.c_char * LONGEST),
    ]  # fmt: skip


_VALUES = POINTER(c_longlong)
# The arguments of the functions that answer a code. PAPI_strerror answers a text.
_FUNCTIONS = {
    "PAPI_library_init": [c_int],
    "PAPI_create_eventset": [POINTER(c_int)],
    "PAPI_destroy_eventset": [POINTER(c_int)],
    "PAPI_cleanup_eventset": [c_int],
    "PAPI_add_named_event": [c_int, c_char_p],
    "PAPI_remove_named_event": [c_int, c_char_p],
    "PAPI_num_events": [c_int],
    "PAPI_state": [c_int, POINTER(c_int)],
    "PAPI_start": [c_int],
    "PAPI_stop": [c_int, _VALUES],
    "PAPI_read": [c_int, _VALUES],
    "PAPI_accum": [c_int, _VALUES],
    "PAPI_reset": [c_int],
    "PAPI_set_opt": [c_int, POINTER(Option)],
    "PAPI_overflow": [c_int, c_int, c_int, c_int, OVERFLOW_HANDLER],
    "PAPI_event_name_to_code": [c_char_p, POINTER(c_int)],
    "PAPI_event_code_to_name": [c_int, c_char_p],
    "PAPI_enum_event": [POINTER(c_int), c_int],
    "PAPI_query_event": [c_int],
    "PAPI_get_event_info": [c_int, POINTER(Info)],
    "PAPI_hl_region_begin": [c_char_p],
    "PAPI_hl_region_end": [c_char_p],
    "kistalub_init": [c_char_p, c_char_p, c_char_p, c_char_p],
    "kistalub_thread": [c_uint32],
    "kistalub_go": [c_uint32, POINTER(c_uint32)],
}


def library_path() -> str:
    """The file of the shared library: what KISTALUB_LIBRARY names, or the one beside this module,
    or under a prefix of bin/install. FileNotFoundError if there is none."""
    named = os.environ.get(VARIABLE)
    if named:
        # (without a folder the system looks for it)
        if os.sep in named and not Path(named).is_file():
            raise FileNotFoundError(
                f"kistalub: {VARIABLE} is {named}, and there is no such file: {REMEDY}"
            )
        return named
    own = Path(__file__).parent / NAME  # of a wheel that has it
    if own.is_file():
        return str(own)
    for prefix in PREFIXES:
        path = Path(prefix) / "lib/kistalub" / NAME
        if path.is_file():
            return str(path)
    raise FileNotFoundError(
        f"kistalub: no {NAME} in lib/kistalub under {', '.join(dict.fromkeys(PREFIXES))}: {REMEDY}"
    )


@lru_cache(maxsize=None)
def loaded() -> ctypes.CDLL:
    """The library with the types of its functions. OSError if it can't be loaded, ImportError if it
    is PAPI's own or older than this module."""
    path = library_path()
    try:
        library = ctypes.CDLL(path)
    except OSError as error:
        raise OSError(
            f"kistalub: {path} is no shared library that can be loaded here ({error}): {REMEDY}"
        ) from None
    if not hasattr(library, "kistalub_go"):
        raise ImportError(f"kistalub: {path} is not Kistalub's library: {REMEDY}")
    for name, arguments in _FUNCTIONS.items():
        function = getattr(library, name, None)
        if function is None:
            raise ImportError(
                f"kistalub: {path} has no {name}: it is older than this module. {REMEDY}"
            )
        function.argtypes = arguments
        function.restype = c_int
    library.PAPI_strerror.argtypes = [c_int]
    library.PAPI_strerror.restype = c_char_p
    library.PAPI_shutdown.argtypes = []
    library.PAPI_shutdown.restype = None
    return library


def text_of(text: str | bytes) -> bytes:
    """A text for C. ValueError if it has a NUL, which would end it."""
    encoded = text.encode() if isinstance(text, str) else text
    if b"\0" in encoded:
        raise ValueError(f"a text with a NUL: {text!r}")
    return encoded


class _Raised(threading.local):
    """What a handler of this thread raised: no exception crosses C, so it waits for the end of the
    call in which time went on."""

    error: BaseException | None = None


_raised = _Raised()


def has_raised() -> bool:
    """Whether an exception of a handler waits."""
    return _raised.error is not None


def keep_raised(error: BaseException) -> None:
    """Keeps the exception of a handler, which the call that is under way raises at its end."""
    _raised.error = error


def call(name: str, *arguments: object) -> int:
    """Calls a function, and gives its answer. Raises what a handler raised meanwhile, or the
    exception of a code below 0."""
    library = loaded()
    answer: int = getattr(library, name)(*arguments)
    error, _raised.error = _raised.error, None
    if error is not None:
        raise error
    if answer < 0:
        raise error_of(answer, name, (library.PAPI_strerror(answer) or b"").decode())
    return answer
