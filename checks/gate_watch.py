"""Runs the parts of the gate one by one, with a line at times that says how far it is, and adds
up what they took and counted."""

from __future__ import annotations

import json
import os
import re
import select
import signal
import subprocess
import time
from dataclasses import asdict, dataclass, field
from pathlib import Path

from here import ROOT

from parts.command import BY_SIGNAL, ENDING_SIGNALS
from parts.crate_graph import read_crates
from proof_costs import EDITS, PROOF, TESTS, Job, Watch, keep_costs, kept_table

EVERY = 60.0  # seconds, between two lines that say how far it is
LOOK = 1.0
PIECE = 1 << 16
COUNT = re.compile(r"^(\d+) passed, (\d+) failed", re.MULTILINE)
DONE = re.compile(r"^rt: (\w+)(?:(: its tests are proved)| proved| is kept:)", re.MULTILINE)
GATES = "gates.csv"  # when it ended, part, seconds, of a processor, passed, failed
TAIL = 4096  # bytes of the output in which the count stands


@dataclass(frozen=True)
class Part:
    """How a part of the gate ended."""

    name: str
    status: int
    seconds: float
    processor: float
    passed: int
    failed: int


@dataclass
class Output:
    """What a command writes, which goes through as it comes."""

    source: int
    is_open: bool = True
    at_line: bool = True
    tail: bytes = b""
    rest: bytes = b""
    done: set[Job] = field(default_factory=set)

    def pass_on(self) -> None:
        """Passes on what is there. Nobody may read it any more: then the command meets that too."""
        piece = os.read(self.source, PIECE)
        if not piece or not self.write(piece):
            self.is_open = False
            return
        self.at_line = piece.endswith(b"\n")
        self.tail = (self.tail + piece)[-TAIL:]
        self.rest += piece
        lines, _, self.rest = self.rest.rpartition(b"\n")
        for found in DONE.finditer(lines.decode(errors="replace")):
            self.done.add((found[1], TESTS if found[2] else PROOF))

    def write(self, piece: bytes) -> bool:
        """Writes to standard output. Gives whether somebody reads it."""
        try:
            while piece:
                piece = piece[os.write(1, piece) :]
        except BrokenPipeError:
            return False
        return True

    def count(self) -> tuple[int, int] | None:
        """The last count that was written."""
        found = COUNT.findall(self.tail.decode(errors="replace"))
        return (int(found[-1][0]), int(found[-1][1])) if found else None


def minutes(seconds: float) -> str:
    return f"{seconds:.0f} s" if seconds < 100 else f"{seconds / 60:.0f} min"


def at_work(job: Job, seconds: float) -> str:
    crate, kind = job
    return f"{crate}{'' if kind == PROOF else f' ({kind})'} for {minutes(seconds)}"


def state(watch: Watch, output: Output, begun: float) -> str:
    """How far it is, as a line."""
    now = time.monotonic()
    works = (
        ", ".join(at_work(job, now - since) for job, since in watch.since.items())
        or "nothing is being proved"
    )
    crates = len(read_crates(ROOT / "crates.txt"))
    done = sum(kind == PROOF for _, kind in output.done)
    took = f"{minutes(now - begun)}, {minutes(watch.total())} of processor"
    return f"gate: {took}: {works}; {done} of {crates} crates are done\n"


def follow(
    child: subprocess.Popen[bytes], output: Output, watch: Watch, every: float = EVERY
) -> None:
    """Passes on what a command writes until it ends, and says how far it is."""
    begun = told = time.monotonic()
    while child.poll() is None:
        if output.is_open and select.select([output.source], [], [], LOOK)[0]:
            output.pass_on()
            if not output.is_open:
                os.close(output.source)
        elif not output.is_open:
            time.sleep(LOOK / 10)
        now = time.monotonic()
        if now - told >= every and output.at_line and output.is_open:
            output.write(state(watch, output, begun).encode())
            told = now
        watch.look_at_times(LOOK)
    while output.is_open and select.select([output.source], [], [], 0)[0]:
        output.pass_on()


def run_part(folder: Path, name: str, command: list[str], every: float = EVERY) -> int:
    """Runs a part, keeps what it came to in the folder, and gives its status."""
    begun, before = time.monotonic(), os.times()
    try:
        child = subprocess.Popen(command, stdout=subprocess.PIPE)
    except OSError as error:
        print(f"gate: {command[0]}: {error.strerror}", flush=True)
        keep(folder, Part(name, 127, 0, 0, 0, 1))
        return 127
    for number in ENDING_SIGNALS:
        if signal.getsignal(number) != signal.SIG_IGN:
            signal.signal(number, lambda number, _: child.send_signal(number))
    assert child.stdout
    output, watch = Output(child.stdout.fileno()), Watch(child.pid)
    follow(child, output, watch, every)
    after = os.times()
    status = child.returncode if child.returncode >= 0 else BY_SIGNAL - child.returncode
    passed, failed = output.count() or (0, 0)
    failed = max(failed, int(status != 0 or not output.count()))
    processor = (
        after.children_user + after.children_system - before.children_user - before.children_system
    )
    keep(folder, Part(name, status, time.monotonic() - begun, processor, passed, failed))
    keep_costs(
        {
            job: seconds
            for job, seconds in watch.end().items()
            if job[1] == EDITS or job in output.done
        }
    )
    return status


def keep(folder: Path, part: Part) -> None:
    number = len(list(folder.glob("*.json")))
    (folder / f"{number}.json").write_text(json.dumps(asdict(part)), encoding="utf-8")


def keep_gate(parts: list[Part]) -> None:
    """Adds a line for each part to the table of this machine's gates."""
    table, now = kept_table().with_name(GATES), time.strftime("%Y-%m-%dT%H:%M:%SZ", time.gmtime())
    table.parent.mkdir(parents=True, exist_ok=True)
    with table.open("a", encoding="utf-8") as lines:
        for part in parts:
            took = f"{part.seconds:.0f},{part.processor:.0f}"
            lines.write(f"{now},{part.name},{took},{part.passed},{part.failed}\n")


def end(folder: Path) -> int:
    """Says how long each part took, and what all have counted."""
    parts = [
        Part(**json.loads(path.read_text(encoding="utf-8")))
        for path in sorted(folder.glob("*.json"))
    ]
    told = [
        f"{part.name} {minutes(part.seconds)} ({minutes(part.processor)} of processor)"
        for part in parts
    ]
    processor = sum(part.processor for part in parts)
    wall = sum(part.seconds for part in parts)
    total = f"{minutes(wall)} in all ({minutes(processor)} of processor)"
    failed = sum(part.failed for part in parts)
    keep_gate(parts)
    print(f"gate: {', '.join([*told, total])}")
    print(f"{sum(part.passed for part in parts)} passed, {failed} failed", flush=True)
    return 1 if failed or not parts else 0
