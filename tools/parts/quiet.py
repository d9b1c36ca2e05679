"""Each tool imports this first: an interrupt while the others are imported ends the process at
once, without a traceback. end_with takes interrupts after that."""

from __future__ import annotations

import signal

if signal.getsignal(signal.SIGINT) is signal.default_int_handler:
    signal.signal(signal.SIGINT, signal.SIG_DFL)
