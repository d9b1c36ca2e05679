"""A program that runs in place of this process: signals go to it, and this process ends as it
does."""

from __future__ import annotations

import ctypes
import os
import resource
import signal
import sys
from typing import Callable, NoReturn

from parts.command import tell

PASSED_ON = {
    signal.SIGHUP,
    signal.SIGINT,
    signal.SIGQUIT,
    signal.SIGTERM,
    signal.SIGUSR1,
    signal.SIGUSR2,
    signal.SIGALRM,
    signal.SIGXCPU,
    signal.SIGCONT,
    signal.SIGWINCH,
}
BY_KERNEL = 0x80  # a signal of the terminal, which the program has too
PR_SET_PDEATHSIG = 1
IGNORED_BY_PYTHON = (signal.SIGPIPE, signal.SIGXFSZ)


def attend(become: Callable[[], NoReturn]) -> int:
    """Starts a process that becomes the program, and waits for its end: its status, or the number
    of the signal that ended it below 0."""
    sys.stdout.flush()
    sys.stderr.flush()
    watched = PASSED_ON | {signal.SIGCHLD}
    before = signal.pthread_sigmask(signal.SIG_BLOCK, watched)
    process = os.fork()
    if not process:
        _become(become, before)
    try:
        return _wait(process, watched)
    finally:
        signal.pthread_sigmask(signal.SIG_SETMASK, before)


def _become(become: Callable[[], NoReturn], mask: set[int]) -> NoReturn:
    """In the new process, which ends with this one."""
    try:
        ctypes.CDLL(None).prctl(PR_SET_PDEATHSIG, signal.SIGKILL)
        for number in IGNORED_BY_PYTHON:
            signal.signal(number, signal.SIG_DFL)
        for number in PASSED_ON:
            if callable(signal.getsignal(number)):
                signal.signal(number, signal.SIG_DFL)
        signal.pthread_sigmask(signal.SIG_SETMASK, mask)
        become()
    except OSError as error:
        tell(f"{error.filename}: {error.strerror}")
    finally:
        os._exit(127)


def _wait(process: int, watched: set[signal.Signals]) -> int:
    while True:
        came = signal.sigwaitinfo(watched)
        if came.si_signo == signal.SIGCHLD:
            ended, status = os.waitpid(process, os.WNOHANG)
            if ended:
                return os.waitstatus_to_exitcode(status)
        elif came.si_code != BY_KERNEL:
            os.kill(process, came.si_signo)


def end_as(status: int) -> NoReturn:
    """Ends this process with a status, or by a signal whose number is given below 0."""
    sys.stdout.flush()
    sys.stderr.flush()
    if status >= 0:
        sys.exit(status)
    resource.setrlimit(resource.RLIMIT_CORE, (0, resource.getrlimit(resource.RLIMIT_CORE)[1]))
    number = -status
    if number not in (signal.SIGKILL, signal.SIGSTOP):
        signal.signal(number, signal.SIG_DFL)
    signal.pthread_sigmask(signal.SIG_UNBLOCK, {number})
    os.kill(os.getpid(), number)
    sys.exit(128 + number)
