"""The installed libpfm4, by its public calls.

Structures and numbers are those of libpfm4's header `perfmon/pfmlib.h`; the calls are described in
its manual pages, among them `pfm_get_event_info(3)` and `pfm_get_os_event_encoding(3)`.
"""

from __future__ import annotations

import ctypes
import os
from ctypes import POINTER, Structure, byref, c_char_p, c_int, c_size_t, c_uint, c_uint64, sizeof
from dataclasses import dataclass
from typing import Iterator

from parts.command import Fault

LIBRARY = "libpfm.so.4"
OS_NONE = 0  # encodings for the processor itself, not for an operating system
USER_AND_KERNEL = 0x09  # PFM_PLM3 and PFM_PLM0
ATTRIBUTE_UMASK = 1
TYPE_NAMES = {0: "unknown", 1: "core", 2: "uncore", 3: "software"}
PMU_NUMBERS = range(2000)  # more than there are, and cheap to ask for
MOST_CODES = 8


class _PmuInfo(Structure):
    _fields_ = [
        ("name", c_char_p), ("desc", c_char_p), ("size", c_size_t), ("pmu", c_int), ("type", c_int),
        ("nevents", c_int),
        ("first_event", c_int), ("max_encoding", c_int), ("num_cntrs", c_int),
        ("num_fixed_cntrs", c_int), ("flags", c_uint),
    ]


class _EventInfo(Structure):
    _fields_ = [
        ("name", c_char_p), ("desc", c_char_p), ("equiv", c_char_p), ("size", c_size_t),
        ("code", c_uint64), ("pmu", c_int),
        ("dtype", c_int), ("idx", c_int), ("nattrs", c_int), ("reserved", c_int), ("flags", c_uint),
    ]


class _AttributeInfo(Structure):
    _fields_ = [
        ("name", c_char_p), ("desc", c_char_p), ("equiv", c_char_p), ("size", c_size_t),
        ("code", c_uint64), ("type", c_int),
        ("idx", c_int), ("ctrl", c_int), ("flags", c_uint), ("default", c_uint64),
    ]


class _Encoding(Structure):
    _fields_ = [
        ("codes", POINTER(c_uint64)), ("fstr", POINTER(c_char_p)), ("size", c_size_t),
        ("count", c_int), ("idx", c_int),
    ]


@dataclass(frozen=True)
class Pmu:
    """A unit of counters that libpfm4 knows, present on this machine or not."""

    name: str
    description: str
    kind: str
    events: int
    programmable: int
    fixed: int
    first_event: int


@dataclass(frozen=True)
class Attribute:
    name: str
    description: str
    is_umask: bool
    is_alias: bool


@dataclass(frozen=True)
class Event:
    name: str
    description: str
    attributes: tuple[Attribute, ...]

    def umasks(self) -> list[Attribute]:
        return [attribute for attribute in self.attributes if attribute.is_umask]

    def modifiers(self) -> list[str]:
        return [attribute.name for attribute in self.attributes if not attribute.is_umask]


class Refused(Exception):
    """A name that libpfm4 does not encode. The text is libpfm4's."""


def _text(value: bytes | None) -> str:
    return (value or b"").decode("utf-8", "replace")


class Libpfm4:
    """The library, loaded and initialized for all processors."""

    def __init__(self) -> None:
        # encode for processors other than this machine's too
        os.environ["LIBPFM_ENCODE_INACTIVE"] = "1"
        try:
            self._library = ctypes.CDLL(LIBRARY)
        except OSError:
            raise Fault("libpfm4 is not installed (apt-get install libpfm4)") from None
        self._library.pfm_strerror.restype = c_char_p
        result = self._library.pfm_initialize()
        if result != 0:
            raise Fault(f"libpfm4 does not start: {self._why(result)}")

    def pmus(self) -> Iterator[Pmu]:
        for number in PMU_NUMBERS:
            info = _PmuInfo(size=sizeof(_PmuInfo))
            if self._library.pfm_get_pmu_info(number, byref(info)) == 0:
                yield Pmu(
                    _text(info.name), _text(info.desc), TYPE_NAMES.get(info.type, "unknown"),
                    info.nevents,
                    info.num_cntrs, info.num_fixed_cntrs, info.first_event,
                )

    def pmu(self, name: str) -> Pmu:
        for pmu in self.pmus():
            if pmu.name == name:
                return pmu
        raise Fault(f"libpfm4 knows no PMU {name} (--list lists them)")

    def events(self, pmu: Pmu) -> Iterator[Event]:
        number = pmu.first_event
        while number >= 0:
            yield self._event(number)
            number = self._library.pfm_get_event_next(number)

    def encode(self, name: str) -> tuple[int, ...]:
        """The codes of a name, for user and kernel if it asks for neither."""
        codes = (c_uint64 * MOST_CODES)()
        encoding = _Encoding(codes=codes, size=sizeof(_Encoding), count=MOST_CODES)
        result = self._library.pfm_get_os_event_encoding(
            name.encode(), USER_AND_KERNEL, OS_NONE, byref(encoding)
        )
        if result != 0:
            raise Refused(self._why(result))
        return tuple(codes[: encoding.count])

    def _event(self, number: int) -> Event:
        info = _EventInfo(size=sizeof(_EventInfo))
        self._check(self._library.pfm_get_event_info(number, OS_NONE, byref(info)))
        attributes = tuple(self._attribute(number, place) for place in range(info.nattrs))
        return Event(_text(info.name), _text(info.desc), attributes)

    def _attribute(self, event: int, place: int) -> Attribute:
        info = _AttributeInfo(size=sizeof(_AttributeInfo))
        self._check(self._library.pfm_get_event_attr_info(event, place, OS_NONE, byref(info)))
        return Attribute(
            _text(info.name), _text(info.desc), info.type == ATTRIBUTE_UMASK, info.equiv is not None
        )

    def _check(self, result: int) -> None:
        if result != 0:
            raise Fault(f"libpfm4: {self._why(result)}")

    def _why(self, result: int) -> str:
        return _text(self._library.pfm_strerror(result))
