"""Event sets of PAPI over modelled counters, by the shared library of Kistalub.

    import kistalub

    with kistalub.Library("lab.unit", stream="first.stream"):
        with kistalub.EventSet("INST_RETIRED", "CYCLES") as events:
            events.start()
            kistalub.go(3)
            print(events.stop())

Counts are what a stream says, so they are the same in each run. A refused call raises an exception
that is named after PAPI's code, and all of them are `PapiError`. docs/PYTHON.md shows more.
"""

from __future__ import annotations

from .errors import (
    EATTR as EATTR,
    EBUF as EBUF,
    EBUG as EBUG,
    ECLOST as ECLOST,
    ECMP as ECMP,
    ECMP_DISABLED as ECMP_DISABLED,
    ECNFLCT as ECNFLCT,
    ECOMBO as ECOMBO,
    ECOUNT as ECOUNT,
    EDELAY_INIT as EDELAY_INIT,
    EINVAL as EINVAL,
    EINVAL_DOM as EINVAL_DOM,
    EISRUN as EISRUN,
    EMISC as EMISC,
    EMULPASS as EMULPASS,
    ENOCMP as ENOCMP,
    ENOCNTR as ENOCNTR,
    ENOEVNT as ENOEVNT,
    ENOEVST as ENOEVST,
    ENOIMPL as ENOIMPL,
    ENOINIT as ENOINIT,
    ENOMEM as ENOMEM,
    ENOSUPP as ENOSUPP,
    ENOTPRESET as ENOTPRESET,
    ENOTRUN as ENOTRUN,
    EPERM as EPERM,
    ESYS as ESYS,
    PapiError,
)
from .event_set import Domain, EventSet, Handler
from .events import EventInfo, describe, native_events, preset_events, user_events
from .library import Library, go, thread
from .regions import region
from .version import __version__

# Names of codes are not given out by *: some are those of errno too.
__all__ = [
    "Domain",
    "EventInfo",
    "EventSet",
    "Handler",
    "Library",
    "PapiError",
    "__version__",
    "describe",
    "go",
    "native_events",
    "preset_events",
    "region",
    "thread",
    "user_events",
]
