"""The refusals of PAPI as exceptions, named after its codes (papi.h, PAPI_strerror(3))."""

from __future__ import annotations


class PapiError(Exception):
    """A call was refused. `code` is PAPI's code, below 0, `call` the function of PAPI, and
    `message` what PAPI_strerror says of the code. `advice` is what to do about it, if that is
    known."""

    code = 0
    advice = ""
    advice_of: dict[str, str] = {}  # by the function of PAPI, in place of that of the code

    def __init__(self, call: str, message: str = "", code: int | None = None):
        if code is not None:
            self.code = code
        self.call = call
        self.message = message
        self.advice = self.advice_of.get(call, self.advice)
        super().__init__(
            f"{call}: {self.name}: {message}" + (f" ({self.advice})" if self.advice else "")
        )

    def __reduce__(self) -> tuple[type[PapiError], tuple[str, str, int]]:
        """So that another process can be given it."""
        return type(self), (self.call, self.message, self.code)

    @property
    def name(self) -> str:
        """The name of the code, as `PAPI_ENOEVNT`."""
        kind = type(self)
        return f"PAPI_{kind.__name__}" if kind is not PapiError else f"code {self.code}"


class EINVAL(PapiError):
    """An argument is not valid."""

    code = -1
    advice_of = {
        "PAPI_add_named_event": "the set has the event already, or has no room for another one",
        "PAPI_start": "the set has no event: add(..) adds one",
        "PAPI_overflow": "a threshold is from 256 on, and its event is not derived; end_overflow "
        "takes away one that there is",
        "kistalub_init": "a library is begun already: leave it before another one begins",
        "PAPI_library_init": "a library is begun already: leave it before another one begins",
        "kistalub_thread": "this thread has another number already, or another thread has this one",
    }


class ENOMEM(PapiError):
    """Out of memory."""

    code = -2
    advice = "there is not enough memory"


class ESYS(PapiError):
    """A file is missing or faulty, or the system refused something. A line on standard error says
    which and why."""

    code = -3
    advice = "a line on standard error says which file, and why"


class ECMP(PapiError):
    """The component does not support it."""

    code = -4


class ECLOST(PapiError):
    """Access to the counters was lost or interrupted."""

    code = -5
    advice = "the thread's counters are lost: begin the library anew"


class EBUG(PapiError):
    """An internal error."""

    code = -6


class ENOEVNT(PapiError):
    """There is no such event, or it is not in the set."""

    code = -7
    advice = "native_events(umasks=True), preset_events() and user_events() list what there is"
    advice_of = {"EventSet": "EventSet.events has the names of its events"}


class ECNFLCT(PapiError):
    """The event does not fit on the counters together with those of the set."""

    code = -8
    advice = "EventSet(.., multiplexed=True) lets events take turns on the counters"
    advice_of = {"PAPI_start": "another set runs on these counters: stop() it first"}


class ENOTRUN(PapiError):
    """The set does not run."""

    code = -9
    advice = "start() begins to count"


class EISRUN(PapiError):
    """The set runs. In a handler: time does not go on there."""

    code = -10
    advice = "stop() the set first"
    advice_of = {"kistalub_go": "time stands while a handler runs: go(..) after it"}


class ENOEVST(PapiError):
    """There is no such set in this thread."""

    code = -11
    advice = "a set belongs to the thread that made it"


class ENOTPRESET(PapiError):
    """The event is no preset."""

    code = -12
    advice = "preset_events() lists the presets"


class ENOCNTR(PapiError):
    """There are no counters."""

    code = -13


class EMISC(PapiError):
    """An error without a code of its own."""

    code = -14
    advice_of = {"PAPI_hl_region_begin": "a region failed before, and none counts after that"}


class EPERM(PapiError):
    """Permission is missing."""

    code = -15


class ENOINIT(PapiError):
    """No library is begun: there is no `Library` around the call."""

    code = -16
    advice = "no library is begun here: with kistalub.Library(unit, stream=..): begins one"
    advice_of = {"EventSet": "a new set counts in the library that is begun"}


class ENOCMP(PapiError):
    """There is no such component."""

    code = -17


class ENOSUPP(PapiError):
    """The model does not support it."""

    code = -18


class ENOIMPL(PapiError):
    """It is not implemented."""

    code = -19


class EBUF(PapiError):
    """There is too little room for the answer."""

    code = -20


class EINVAL_DOM(PapiError):
    """The domain is not valid."""

    code = -21
    advice = "a domain is Domain.USER, Domain.KERNEL or both"


class EATTR(PapiError):
    """An attribute of the event is missing or not valid."""

    code = -22
    advice = "native_events(umasks=True) lists the umasks"


class ECOUNT(PapiError):
    """There are too many events or attributes."""

    code = -23
    advice = "the README's limits say how many there may be"


class ECOMBO(PapiError):
    """These features can't be combined: a threshold in a multiplexed set."""

    code = -24
    advice_of = {
        "PAPI_add_named_event": "no counter counts these umasks together: name one of them",
        "PAPI_overflow": "thresholds need a set that is not multiplexed",
    }


class ECMP_DISABLED(PapiError):
    """The component of the event is disabled."""

    code = -25


class EDELAY_INIT(PapiError):
    """The component begins later."""

    code = -26


class EMULPASS(PapiError):
    """The event needs several passes."""

    code = -27


BY_CODE: dict[int, type[PapiError]] = {kind.code: kind for kind in PapiError.__subclasses__()}


def error_of(code: int, call: str, message: str) -> PapiError:
    """The exception of a code below 0."""
    kind = BY_CODE.get(code)
    return kind(call, message) if kind else PapiError(call, message, code)
