"""Carries out worked rows with the built program, over files of a folder, and compares what
comes."""

from __future__ import annotations

import os
from dataclasses import dataclass
from pathlib import Path
from typing import Iterator

from row_files import ALL, Row, in_run
from running import Program, Run, ended

FRONT = "..."
NOTE = b"note "
NOTES = "--notes"
PICKING = ("-M", "--thread", "--set", "--index")  # what papi_profil is told beside papi_run


@dataclass(frozen=True)
class RowRun:
    """One run of a row: its words, its number k, and its number of workers, if it gives one."""

    words: str
    k: int = 0
    workers: int | None = None

    def given(self) -> list[str]:
        """The words as the program is given them."""
        words = self.words.split()
        return (
            words[:1]
            + ([] if self.workers is None else ["--workers", str(self.workers)])
            + words[1:]
        )

    def named(self) -> str:
        return f"{self.words} (k {self.k}, workers {self.workers or 1})"


@dataclass(frozen=True)
class Came:
    """What came of a run, and the lines of notes, if they are shown in another one."""

    run: Run
    notes: str | None = None


def runs_of(row: Row) -> Iterator[RowRun]:
    """All runs of a row."""
    for words in row.words:
        for workers in row.workers or (None,):
            for k in row.numbers():
                yield RowRun(words, k, workers)


def text_of(written: bytes) -> str:
    return written.decode("utf-8", "surrogateescape")


def agrees(given: str, came: str) -> bool:
    """Whether a text is the given one, line by line. If a given line ends in three dots, only
    what stands before them is compared."""
    wanted, lines = given.split("\n"), came.split("\n")
    alike = (
        line.startswith(want[: -len(FRONT)]) if want.endswith(FRONT) else line == want
        for want, line in zip(wanted, lines)
    )
    return len(wanted) == len(lines) and all(alike)


def expected(text: str, room: int) -> str:
    """What is expected of a text: its front, if only so many bytes are taken."""
    return text_of(text.encode()[:room])


def shows_notes(row: Row, words: list[str]) -> bool:
    """Whether the notes of a run are to be seen in another one, which shows them."""
    tool = words[0] if words else ""
    return (
        row.gives_notes
        and row.out_room == ALL
        and NOTES not in words
        and (tool == "papi_run" or (tool == "papi_profil" and row.status == 0))
    )


def with_notes(words: list[str]) -> list[str]:
    """The words of the run that shows the notes of another one: papi_run over the same files."""
    picked = [
        place for place, word in enumerate(words) if words[0] == "papi_profil" and word in PICKING
    ]
    left_out = {0, *picked, *(place + 1 for place in picked)}
    return ["papi_run", NOTES, *(word for place, word in enumerate(words) if place not in left_out)]


class Rows:
    """Carries out rows, each in a folder that has its files."""

    def __init__(self, program: Program, failing: Path | None, shared: dict[str, bytes]):
        self.program = program
        self.failing = failing  # the library that makes calls fail
        self.shared = shared

    def carry_out(self, row: Row, run: RowRun, folder: Path) -> Came:
        how = self._failures(row, run.k)
        words = run.given()
        came = self.program.run(list(words), folder, **how)
        if not shows_notes(row, words):
            return Came(came)
        return Came(
            came,
            self._notes(came, self.program.run(list(with_notes(words)), folder, **how), words[0]),
        )

    def _notes(self, came: Run, shown: Run, tool: str) -> str:
        """The lines of notes of a run that shows them. It must else be as the one that does not."""
        lines = shown.out.splitlines(keepends=True)
        notes = [line for line in lines if line.startswith(NOTE)]
        rest = Run(shown.status, b"".join(lines[: len(lines) - len(notes)]), shown.err)
        if tool == "papi_run" and rest != came:
            return f"(with {NOTES}: {ended(shown)}, and {text_of(shown.err or rest.out)})\n"
        return text_of(b"".join(line[len(NOTE) :] for line in notes))

    def _failures(self, row: Row, k: int) -> dict[str, object]:
        """What a run is told of calls that fail."""
        told = {}
        if row.failing:
            told["FAILING_OPENINGS"] = " ".join(map(str, row.failing))
        if row.faults:
            told["FAILING_READS"] = " ".join(
                f"{name} {in_run(after, k)}" for name, after in row.faults
            )
        for variable, amount in (
            ("FAILING_PIECE", row.piece),
            ("FAILING_OUT", row.out_room),
            ("FAILING_ERR", row.err_room),
        ):
            if amount != ALL:
                told[variable] = str(in_run(amount, k))
        return {"env": {**os.environ, **told, "LD_PRELOAD": str(self.failing)}} if told else {}

    def place(self, row: Row, folder: Path) -> None:
        """Writes the files of a row."""
        for name, content in {**self.shared, **row.contents()}.items():
            (folder / name).write_bytes(content)

    def faults_of_no_file(self, row: Row) -> list[str]:
        there = {**self.shared, **row.contents()}
        return [name for name, _ in row.faults if name not in there]


def needs_failing(row: Row) -> bool:
    """Whether calls fail in the runs of a row."""
    return bool(row.failing or row.faults) or any(
        amount != ALL for amount in (row.piece, row.out_room, row.err_room)
    )


def is_as_said(row: Row, run: RowRun, came: Came) -> bool:
    """Whether what came of a run is what the row says."""
    out, err = expected(row.out, in_run(row.out_room, run.k)), expected(
        row.err, in_run(row.err_room, run.k)
    )
    return (
        came.run.status == row.status
        and agrees(out, text_of(came.run.out))
        and agrees(err, text_of(came.run.err))
        and (came.notes is None or agrees(row.notes, came.notes))
    )


def report(row: Row, run: RowRun, came: Came) -> str:
    """What is said of a run that differs."""
    texts = (
        ("out", text_of(came.run.out)),
        ("err", text_of(came.run.err)),
        ("notes", came.notes or ""),
    )
    return f"differs: {row.title}\n{run.named()}\n{ended(came.run)}\n" + "".join(
        f"{name}\n{text}" for name, text in texts
    )
