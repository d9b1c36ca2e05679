"""Reads files of worked rows: words over files, and what a tool answers to them.

A file of rows has an empty line between two rows. The lines of a row are these:

- `row SENTENCE` says what it shows.
- `words WORD ..` has the words, and `or WORD ..` further ones with which the same comes. More
  words may stand below.
- `script`, with the lines of the file `s` below, each beside its reply: `0 run 3 -> PAPI_OK 2
  0`. The line's number, the thread and the call, with which a reply begins, are left out. If the
  script is refused its lines have no replies.
- `file NAME` (a stream too), with its lines below. Each row also has the units and the presets
  of the folder, if it has none of that name itself.
- `opening N fails`, counted from 1; `NAME fails after N bytes`: its reads fail then (`all`: at
  its end); `reads give N bytes` at most; `out takes N bytes`, `err takes N bytes`: writes fail
  then, and their first N bytes are what is expected.
- `for workers N ..` carries the row out with each of these numbers of workers; `for k from N to
  M`, `for k below the length of out` and `.. of err` carry it out for each k, which stands as
  `k` in the settings above.
- `status N`, if it is not 0.
- `out` and `err`, with the lines below: the output, after the replies, and the lines on standard
  error.
- `notes`, with a line `THREAD SET INDEX PC` below for each note of the handlers; with `--notes`
  they are expected after the replies too. `notes unread`: the notes are not compared.

Lines that stand below begin with two blanks. `300 times: LINE` is that line so often, and one
that ends in a backslash goes on without a newline. Of a reply, or a line of `out`, `err` or
`notes`, that ends in three dots only what stands before them is compared. A line that begins
with `#` is skipped.
"""

from __future__ import annotations

import re
from dataclasses import dataclass, field
from typing import Callable, Iterator, Union

K = "k"  # in place of a number: that of the run
ALL = 1 << 62
Amount = Union[int, str]
NUMBER = "[0-9]+"
TIMES = re.compile(rf"({NUMBER}) times: (.*)")


class NoRow(Exception):
    """A block of lines that is not a row. Its text is the line that is none of a row."""


@dataclass
class Row:
    """Words over files, and what is to come of them."""

    title: str = ""
    words: list[str] = field(
        default_factory=list
    )  # lists of words with blanks between, each of which gives the same
    files: list[tuple[str, list[str]]] = field(
        default_factory=list
    )  # names and pieces of content, of which the first of a name counts
    faults: list[tuple[str, Amount]] = field(
        default_factory=list
    )  # files whose reads fail, and after how many bytes
    failing: list[int] = field(default_factory=list)  # the openings that fail, from 1
    piece: Amount = ALL  # how many bytes a read gives at most
    out_room: Amount = ALL
    err_room: Amount = ALL
    workers: list[int] = field(default_factory=list)  # none: once, without that option
    runs: Union[tuple[int, int], str] = (
        0,
        1,
    )  # the numbers k, up to but not including the second, or the output whose length ends them
    status: int = 0
    out: str = ""
    err: str = ""
    notes: str = ""
    gives_notes: bool = True

    def numbers(self) -> range:
        """The numbers k of its runs."""
        if isinstance(self.runs, str):
            return range(len((self.out if self.runs == "out" else self.err).encode()))
        return range(*self.runs)

    def contents(self) -> dict[str, bytes]:
        """Its files by their names."""
        found: dict[str, bytes] = {}
        for name, pieces in self.files:
            found.setdefault(name, "".join(pieces).encode())
        return found


def in_run(amount: Amount, k: int) -> int:
    """An amount in run k."""
    return k if isinstance(amount, str) else amount


def amount_of(text: str) -> Amount | None:
    if text in (K, "all"):
        return K if text == K else ALL
    return int(text) if re.fullmatch(NUMBER, text) else None


def times_of(line: str) -> tuple[int, str]:
    """How often a line of content stands there, and the line."""
    found = TIMES.fullmatch(line)
    return (int(found[1]), found[2]) if found else (1, line)


def content_of(line: str) -> str:
    """What a line of content stands for."""
    times, text = times_of(line)
    return times * (text[:-1] if text.endswith("\\") else f"{text}\n")


class _Reader:
    """A row while it is read."""

    def __init__(self) -> None:
        self.row = Row()
        self.calls = 0
        self.take_content: Callable[[str], None] | None = None

    def take(self, line: str) -> None:
        """A line that begins a section, a setting, or a line of content. Raises NoRow if it is
        none."""
        if line.startswith("  "):
            if self.take_content is None:
                raise NoRow(line)
            self.take_content(line[2:])
        elif line and not line.startswith("#"):
            if not (self._begins(line) or self._sets(line)) or not self.row.title:
                raise NoRow(line)

    def _begins(self, line: str) -> bool:
        keyword, _, rest = line.partition(" ")
        if keyword == "row":
            self.row.title += rest
        elif keyword in ("words", "or"):
            self.row.words.append(rest)
            self.take_content = self._take_words
        elif keyword == "script":
            self._begin_file("s", self._take_call)
        elif keyword == "file":
            self._begin_file(rest, self._take_line)
        elif keyword in ("out", "err", "notes") and not rest:
            self.take_content = {
                "out": self._take_out,
                "err": self._take_err,
                "notes": self._take_note,
            }[keyword]
        else:
            return False
        return True

    def _begin_file(self, name: str, take: Callable[[str], None]) -> None:
        self.row.files.append((name, []))
        self.take_content = take

    def _take_line(self, line: str) -> None:
        self.row.files[-1][1].append(content_of(line))

    def _take_words(self, line: str) -> None:
        times, more = times_of(line)
        self.row.words[-1] += times * f" {more}"

    def _take_call(self, line: str) -> None:
        """A call of the script, with its reply after an arrow."""
        times, rest = times_of(line)
        call, _, reply = rest.partition(" -> ")
        call = call.rstrip()
        thread, _, more = call.partition(" ")
        self._take_line(f"{times} times: {call}")
        if reply:
            numbers = range(self.calls + 1, self.calls + times + 1)
            self.row.out += "".join(
                f"{number} {thread} {more.partition(' ')[0]} {reply}\n" for number in numbers
            )
        self.calls += times

    def _take_out(self, line: str) -> None:
        self.row.out += content_of(line)

    def _take_err(self, line: str) -> None:
        self.row.err += content_of(line)

    def _take_note(self, line: str) -> None:
        self.row.notes += content_of(line)
        if self.row.words and "--notes" in self.row.words[-1]:
            self.row.out += f"note {content_of(line)}"

    def _sets(self, line: str) -> bool:
        """Whether a line is a setting, to its end."""
        for pattern, take in _SETTINGS:
            if found := re.fullmatch(pattern, line):
                return take(self.row, *found.groups())
        return False


def _take_runs(row: Row, first: str, last: str) -> bool:
    row.runs = (int(first), int(last) + 1)
    return True


def _take_length(row: Row, output: str) -> bool:
    row.runs = output
    return True


def _take_status(row: Row, number: str) -> bool:
    row.status = int(number)
    return True


def _take_workers(row: Row, numbers: str) -> bool:
    row.workers += [int(number) for number in numbers.split(" ")]
    return True


def _take_opening(row: Row, number: str) -> bool:
    row.failing.append(int(number))
    return True


def _take_fault(row: Row, name: str, text: str) -> bool:
    amount = amount_of(text)
    if amount is not None:
        row.faults.append((name, amount))
    return amount is not None


def _take_amount(row: Row, subject: str, text: str) -> bool:
    amount = amount_of(text)
    if amount is not None:
        setattr(
            row,
            {"out takes": "out_room", "err takes": "err_room", "reads give": "piece"}[subject],
            amount,
        )
    return amount is not None


def _take_unread(row: Row) -> bool:
    row.gives_notes = False
    return True


_SETTINGS: list[tuple[str, Callable[..., bool]]] = [
    (rf"for k from ({NUMBER}) to ({NUMBER})", _take_runs),
    ("for k below the length of (out|err)", _take_length),
    (rf"status ({NUMBER})", _take_status),
    (rf"for workers ({NUMBER}(?: {NUMBER})*)", _take_workers),
    (rf"opening ({NUMBER}) fails", _take_opening),
    ("(out takes|err takes|reads give) (.+) bytes", _take_amount),
    ("(.+) fails after (.+) bytes", _take_fault),
    ("notes unread", _take_unread),
]


def read_row(block: str) -> Row | None:
    """A row out of its lines, or nothing if the block has no title."""
    reader = _Reader()
    for line in block.split("\n"):
        reader.take(line)
    return reader.row if reader.row.title else None


def blocks_of(text: str) -> Iterator[str]:
    """The blocks of a file of rows, of which each may be a row."""
    yield from text.split("\n\n")
