"""What all tools share: their outputs, how a tool ends, and how it shows its progress."""

from __future__ import annotations

import argparse
import io
import os
import signal
import sys
import time
from contextlib import contextmanager, suppress
from pathlib import Path
from types import FrameType
from typing import Any, Callable, Iterable, Iterator, NoReturn, Sequence

from formats import files
from formats.texts import plain

BY_SIGNAL = 128  # what a status adds to the number of a signal
MOST_BYTES = 1 << 27  # of a file that is read as a whole
LONGEST_LINE = 1 << 20  # bytes, of standard input
MOMENT = 0.5  # seconds in which a signal to all of a job has come to each
SOON = 0.01  # seconds
# All that end a process, but for those that can't be caught, that Python ignores, or that tell of a
# fault of its own.
ENDING_SIGNALS = tuple(sorted(
    signal.valid_signals()
    - {
        signal.SIGKILL, signal.SIGSTOP, signal.SIGTSTP, signal.SIGTTIN, signal.SIGTTOU,
        signal.SIGCHLD, signal.SIGCONT, signal.SIGURG, signal.SIGWINCH,
    }
    - {signal.SIGPIPE, signal.SIGXFSZ}
    -{
        signal.SIGILL, signal.SIGTRAP, signal.SIGABRT, signal.SIGBUS, signal.SIGFPE, signal.SIGSEGV,
        signal.SIGSYS,
    }
))


class Fault(Exception):
    """Input that a tool cannot use. Its text is the line on standard error, after which more lines
    of another program may come, and the tool ends with its status."""

    def __init__(self, text: str, status: int = 1, more: Sequence[str] = ()):
        super().__init__(text)
        self.status = status
        self.more = more


def own_name() -> str:
    """What this process was started as: an installed tool may have a suffix."""
    return Path(sys.argv[0]).name


class _Signal:
    """What is known of the signal that ends this process."""

    depth = 0  # of what it may not interrupt
    deferred: int | None = None
    taken: int | None = None


def _end_by_signal(number: int, frame: FrameType | None) -> None:
    if _Signal.depth:
        _Signal.deferred = number
        return
    _Signal.taken = number
    for other in ENDING_SIGNALS:
        signal.signal(other, signal.SIG_IGN)
    _raise_end(number)


def _raise_end(number: int) -> NoReturn:
    if number == signal.SIGINT:
        raise KeyboardInterrupt
    sys.exit(BY_SIGNAL + number)


def _end_again(lost: sys.UnraisableHookArgs) -> None:
    """An end that came in a finalizer, from which nothing is raised, comes once more."""
    number = _Signal.taken
    if number is None or not isinstance(lost.exc_value, (SystemExit, KeyboardInterrupt)):
        sys.__unraisablehook__(lost)
        return
    signal.signal(signal.SIGALRM, lambda *_: _raise_end(number))
    signal.setitimer(signal.ITIMER_REAL, SOON)


def end_by_termination() -> None:
    """From now on any signal that ends the process does so with a status, so that what it has
    started and made ends too. One that is ignored stays so, and while the process ends no other one
    comes in between."""
    sys.unraisablehook = _end_again
    for number in ENDING_SIGNALS:
        if signal.getsignal(number) != signal.SIG_IGN:
            signal.signal(number, _end_by_signal)


def heed_signal(status: int) -> None:
    """What this process waited for has ended with a status, or by a signal whose number is below 0.
    One that ended it may be for all of a job, and come here a moment later: then this process ends
    by it too, and says nothing of what it waited for."""
    if (-status if status < 0 else status - BY_SIGNAL) in ENDING_SIGNALS:
        time.sleep(MOMENT)


@contextmanager
def uninterrupted() -> Iterator[None]:
    """A signal to end that comes in this block acts at its end: what the block begins is known
    then, and can be ended."""
    _Signal.depth += 1
    try:
        yield
    finally:
        _Signal.depth -= 1
    if _Signal.deferred is not None and not _Signal.depth:
        _end_by_signal(_Signal.deferred, None)


class _Output(io.FileIO):
    """Standard output, whose faults name it."""

    def write(self, data: Any, /) -> int:
        try:
            return super().write(data)
        except OSError as error:
            raise OSError(error.errno, error.strerror, "standard output") from None


class _Errors(io.FileIO):
    """Standard error. What it does not take is lost, and changes nothing else."""

    def write(self, data: Any, /) -> int:
        with suppress(OSError):
            super().write(data)
        return len(data)


def _open_closed(number: int) -> None:
    """Puts something into the place of a standard stream that is closed, so that no file that is
    opened later gets its number: input and output fail as a closed one does, and what goes to
    standard error is lost."""
    try:
        os.fstat(number)
        return
    except OSError:
        # (it is the lowest number that is free)
        opened = os.open(os.devnull, os.O_RDONLY if number == 1 else os.O_WRONLY)
    os.set_inheritable(opened, True)


def settle_streams() -> None:
    """Standard input and output are texts in UTF-8, whatever the locale is. Bytes of a name that
    are none go out as they came in. A closed stream fails when it is used."""
    for number in range(3):
        _open_closed(number)
    if sys.stdin is None or sys.stdin is sys.__stdin__:
        sys.stdin = open(0, encoding="utf-8", closefd=False)
    if sys.stdout is None or sys.stdout is sys.__stdout__:
        output = io.BufferedWriter(_Output(1, "w", closefd=False))
        sys.stdout = io.TextIOWrapper(
            output, encoding="utf-8", errors="surrogateescape", line_buffering=output.isatty()
        )
    if sys.stderr is None or sys.stderr is sys.__stderr__:
        encoding = sys.stderr.encoding if sys.stderr is not None else "utf-8"
        sys.stderr = io.TextIOWrapper(
            io.BufferedWriter(_Errors(2, "w", closefd=False)), encoding=encoding,
            errors="backslashreplace", line_buffering=True,
        )


def _drop_output() -> None:
    """What standard output could not take goes nowhere. Python would try once more at its end, and
    complain."""
    with suppress(OSError):
        nowhere = os.open(os.devnull, os.O_WRONLY)
        os.dup2(nowhere, sys.stdout.fileno())
        os.close(nowhere)


def _why(error: OSError) -> str:
    """What failed, and how."""
    reason = error.strerror or str(error) or type(error).__name__
    return (
        f"{os.fsdecode(error.filename)}: {reason}"
        if isinstance(error.filename, (str, bytes)) and error.filename else reason
    )


def tell(what: object, tool: str | None = None) -> None:
    """Says something on one line of standard error, whatever stands in the names in it."""
    print(f"{tool or own_name()}: {plain(str(what))}", file=sys.stderr)


def pass_on(lines: Iterable[str]) -> None:
    """Passes on what another program said on standard error."""
    for line in lines:
        print(plain(line), file=sys.stderr)


class Parser(argparse.ArgumentParser):
    """Words of a tool. What is wrong with them is one line, whatever they are."""

    def error(self, message: str) -> NoReturn:
        super().error(plain(message))


def _status_of(tool: str, work: Callable[[], None]) -> int:
    """The status of the work, of which a line is told if it is no good one."""
    try:
        work()
    except Fault as fault:
        tell(fault, tool)
        pass_on(fault.more)
        return fault.status
    except SystemExit as end:
        return end.code if isinstance(end.code, int) else int(end.code is not None)
    except KeyboardInterrupt:
        return BY_SIGNAL + signal.SIGINT
    except BrokenPipeError:
        return 1  # the reader has enough
    except OSError as error:
        tell(_why(error), tool)
        return 1
    except RecursionError:
        tell("the input is nested too deep", tool)
        return 1
    except MemoryError:
        tell("out of memory", tool)
        return 1
    return 0


def end_with(tool: str, work: Callable[[], None]) -> None:
    """Does the work and ends the process: 0, or another status with one line on standard error.
    Words that are read in the work may end it too."""
    settle_streams()
    end_by_termination()
    status = _status_of(tool, work)
    try:
        sys.stdout.flush()
    except BrokenPipeError:
        status = status or 1
        _drop_output()
    except OSError as error:
        if status == 0:
            tell(_why(error), tool)
        status = status or 1
        _drop_output()
    sys.exit(status)


class Progress:
    """One line on standard error that is written again and again, if that is a terminal."""

    def __init__(self, label: str, total: int = 0):
        self.label = label
        self.total = total
        self.shown = sys.stderr.isatty()

    def show(self, done: int) -> None:
        if self.shown:
            of_total = f" of {self.total:,}" if self.total else ""
            self._write(f"\r{self.label}: {done:,}{of_total}\x1b[K")

    def tell(self, text: str) -> None:
        """Shows a text in place of a number."""
        if self.shown:
            self._write(f"\r{self.label}: {text}\x1b[K")

    def close(self) -> None:
        """Takes the line away."""
        if self.shown:
            self._write("\r\x1b[K")

    def _write(self, text: str) -> None:
        """The terminal may be gone."""
        try:
            print(text, end="", file=sys.stderr, flush=True)
        except OSError:
            self.shown = False


def read_found(name: str | os.PathLike[str], most: int = MOST_BYTES) -> bytes:
    """What a file has that a folder or another file names, or the fault that says why it is not
    read: it can't be, it is not regular, or it has more bytes than these."""
    try:
        return files.content(name, most)
    except files.Unread as unread:
        raise Fault(str(unread)) from None
    except OSError as error:
        raise Fault(f"{os.fspath(name)}: {error.strerror}") from None


def read_bytes(name: str, most: int = MOST_BYTES) -> bytes:
    """The same for a file that a person names, which may be a pipe."""
    try:
        with open(name, "rb") as file:
            content = file.read(most + 1)
    except OSError as error:
        raise Fault(f"{name}: {error.strerror}") from None
    if len(content) > most:
        raise Fault(f"{name}: too large")
    return content


def read_file(name: str) -> str:
    """The text of a file, or the fault that says why there is none."""
    content = read_bytes(name)
    try:
        return content.decode("utf-8").replace("\r\n", "\n").replace("\r", "\n")
    except UnicodeDecodeError:
        raise Fault(f"{name}: not a text file") from None


def is_text_of(path: Path, text: str) -> bool:
    """Whether a file is there and has this text."""
    try:
        with open(path, "rb") as file:
            return file.read(len(text.encode()) + 1) == text.encode()
    except FileNotFoundError:
        return False


def input_lines(most: int | None = None) -> Iterator[bytes]:
    """The lines of standard input with their ends, and at most so many bytes of them in all if a
    number is given. A fault says why there are none."""
    number = size = 0
    while True:
        number += 1
        try:
            line = sys.stdin.buffer.readline(LONGEST_LINE + 1)
        except OSError as error:
            raise Fault(f"standard input: {error.strerror}") from None
        size += len(line)
        if len(line) > LONGEST_LINE or most is not None and size > most:
            raise Fault(
                f"standard input: line {number}: too "
                f"{'long' if len(line) > LONGEST_LINE else 'many'}"
            )
        if not line:
            return
        yield line


def counted(number: int, word: str) -> str:
    """`1 name`, `2 names`."""
    return f"{number:,} {word}" if number == 1 else f"{number:,} {word}s"
