"""What the refusal of a call means: PAPI's sentence for its code, and the rule by which it comes
(docs/FORMATS.md, What the calls do)."""

from __future__ import annotations

import re
from typing import Sequence

from .texts import counted

# PAPI_strerror(3) of PAPI 7.0, for the codes that a reply may have.
SENTENCES = {
    "PAPI_OK": "No error",
    "PAPI_EINVAL": "Invalid argument",
    "PAPI_ESYS": "A System/C library call failed",
    "PAPI_ENOEVNT": "Event does not exist",
    "PAPI_ECNFLCT": "Event exists, but cannot be counted due to hardware resource limits",
    "PAPI_ENOTRUN": "EventSet is currently not running",
    "PAPI_EISRUN": "EventSet is currently counting",
    "PAPI_ENOEVST": "No such EventSet available",
    "PAPI_ENOCMP": "Component Index isn't set",
    "PAPI_EATTR": "Invalid or missing event attributes",
    "PAPI_ECOUNT": "Too many events or attributes",
    "PAPI_ECOMBO": "Bad combination of features",
}
OF_NAME = "the name's code"
# The refusals of each call in their order. The first one that holds is the reply.
# tools/make_calls: begin
RULES = {
    "register": "none",
    "unregister": "EISRUN: a set of the thread runs; EINVAL: the thread is not registered",
    "threads": "none",
    "create": "ECOUNT: 64 sets",
    "destroy": "ENOEVST, EISRUN, EINVAL: it has events",
    "cleanup": "ENOEVST, EISRUN",
    "add": "ENOEVST, EISRUN, the name's code, EINVAL: another component's, or in the set; "
    "ECOUNT: more than 32 events or native events; ECNFLCT",
    "remove": "ENOEVST, EISRUN, the name's code, EINVAL: not in the set",
    "component": "ENOEVST, ENOCMP: no such component; EISRUN, EINVAL: it has another one",
    "domain": "ENOEVST, EISRUN, EINVAL: not 1, 2 or 3",
    "multiplex": "ENOEVST, EISRUN, EINVAL: not from 1 to 1,000,000 ticks; ECOMBO: a threshold "
    "is set",
    "overflow": "ENOEVST, EISRUN, the name's code, EINVAL: not in the set, or derived, or the "
    "threshold neither 0 nor from 256 to the last value of the component's narrowest register, or "
    "another event's threshold is on the same native event; ECOMBO: multiplexed",
    "start": "ENOEVST, EISRUN: it or another set of its component; EINVAL: no events",
    "stop": "ENOEVST, ENOTRUN",
    "read": "ENOEVST",
    "accum": "ENOEVST",
    "reset": "ENOEVST",
    "state": "ENOEVST",
    "events": "ENOEVST",
    "assign": "ENOEVST, ECOMBO: multiplexed",
    "raw": "ENOEVST, ENOTRUN, EINVAL: the component lacks the counter; ECOMBO: multiplexed; "
    "EINVAL: no native event of the set is on the counter",
    "run": "none; ESYS is not a refusal",
    "code": "the name's code",
    "name": "ENOEVNT: no preset and no user event has the code, and no native event that was "
    "mentioned so far",
}
# tools/make_calls: end
MEANINGS = {
    "ENOEVST": "the set is not there",
    "EISRUN": "the set runs",
    "ENOTRUN": "the set does not run",
}
# What is wrong with a name: the fault as papi_encode prints it, when it comes, and its code.
NAME_FAULTS = (
    ("NOTFOUND", "no component that agrees has the event", "PAPI_ENOEVNT"),
    ("ATTR", "the attribute is neither a umask's name nor a modifier's", "PAPI_EATTR"),
    ("ATTR_SET", "the same umask or modifier stood before; or, after all attributes, a modifier "
                 "that a chosen umask fixes has another value", "PAPI_EATTR"),
    ("ATTR_VAL", "a umask with a value, or a value out of its form", "PAPI_EATTR"),
    (
        "FEATCOMB",
        (
            "a second umask, if one of those named cannot be combined; or, after all attributes, "
            "no counter of the event is allowed by each of the chosen umasks"
        ),
        "PAPI_ECOMBO",
    ),
    ("UMASK", "the event has umasks, none is named and none is the default", "PAPI_EATTR"),
)
REFUSAL = re.compile(r"(the name's code|E[A-Z]+)(?:: ([^;]*))?(?:[,;] |$)")


def causes_of(call: str, code: str) -> list[str]:
    """When a call is refused with a code: one text for each cause, in their order. A cause that the
    code says whole has none."""
    found = [
        (name, text or MEANINGS.get(name, ""))
        for name, text in REFUSAL.findall(RULES.get(call, ""))
    ]
    causes = [text for name, text in found if f"PAPI_{name}" == code and text]
    if any(name == OF_NAME for name, _ in found):
        causes += [text for _, text, of_fault in NAME_FAULTS if of_fault == code]
    return causes


def why_not(events: int, counters: Sequence[str]) -> str:
    """Why a number of events do not fit, in a sentence or two."""
    if not counters:
        return f"{'This event is' if events == 1 else 'These events are'} allowed no counter."
    told = counters[0] if len(counters) == 1 else f"{', '.join(counters[:-1])} and {counters[-1]}"
    allowed = f"{counted(len(counters), 'counter')}, {told}, and no others"
    without = events - len(counters)
    return (
        f"These {counted(events, 'event')} are allowed {allowed}. So "
        f"{'one of them has' if without == 1 else f'{without} of them have'} no place."
    )
