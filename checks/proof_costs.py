"""What each crate costs the prover: processor seconds of its proof, its tests and its edits, by
watching the processes, and the table that keeps them."""

from __future__ import annotations

import csv
import io
import os
import time
from contextlib import suppress
from dataclasses import dataclass, field
from pathlib import Path

from here import ROOT

PROOF, TESTS, EDITS = KINDS = ("proof", "tests", "edits")
SNAPSHOT = ROOT / "checks/costs.csv"
HEAD = ("crate", *KINDS)
HERTZ = os.sysconf("SC_CLK_TCK")
Job = tuple[str, str]  # a crate and a kind


@dataclass
class Process:
    """A process as /proc shows it. The ticks are its own, and those of its children that have
    ended."""

    parent: int
    begun: int
    ticks: int

    @classmethod
    def read(cls, number: int) -> Process:
        fields = Path(f"/proc/{number}/stat").read_text(errors="replace").rpartition(")")[2].split()
        return cls(int(fields[1]), int(fields[19]), sum(map(int, fields[11:15])))


def all_processes() -> dict[int, Process]:
    found = {}
    for name in os.listdir("/proc"):
        if name.isdigit():
            with suppress(OSError, IndexError, ValueError):
                found[int(name)] = Process.read(int(name))
    return found


def children_of(processes: dict[int, Process]) -> dict[int, list[int]]:
    found: dict[int, list[int]] = {}
    for number, process in processes.items():
        found.setdefault(process.parent, []).append(number)
    return found


def job_of(words: list[str], folder: str) -> Job | None:
    """What a process proves, by its words and the folder that it works in; nothing if it is not
    the prover."""
    if (
        len(words) < 2
        or os.path.basename(words[0]) != "rattle"
        or words[1] not in ("build", "check")
        or "--crate-name" not in words[:-1]
    ):
        return None
    crate = words[words.index("--crate-name") + 1]
    if "--only" in words or Path(folder).parts[-2:] != ("crates", crate):
        return crate, EDITS
    return crate, TESTS if "--test" in words else PROOF


@dataclass
class Watch:
    """What the prover does below a process. `look` is called again and again."""

    root: int
    seconds: dict[Job, float] = field(default_factory=dict)  # of the processes that have ended
    _known: dict[tuple[int, int], Job] = field(default_factory=dict)
    _live: dict[tuple[int, int], float] = field(default_factory=dict)
    since: dict[Job, float] = field(
        default_factory=dict
    )  # when each that is at work now was seen first
    _looked: float = 0

    def look_at_times(self, every: float) -> None:
        """Looks, if the last look was so many seconds ago."""
        if time.monotonic() - self._looked >= every:
            self.look()
            self._looked = time.monotonic()

    def look(self) -> None:
        processes = all_processes()
        children = children_of(processes)
        there = {}
        below = list(children.get(self.root, []))
        for number in below:
            key = (number, processes[number].begun)
            if key not in self._known:
                self._learn(key)
            if key in self._known:
                there[key] = (
                    processes[number].ticks / HERTZ
                )  # (those that it has started are in its own when they end)
            else:
                below += children.get(number, [])
        for key in self._live.keys() - there.keys():
            self._end(key)
        self._live.update(there)
        now = time.monotonic()
        self.since = {
            job: self.since.get(job, now) for job in sorted({self._known[key] for key in there})
        }

    def _learn(self, key: tuple[int, int]) -> None:
        """What a process proves. One that was started a moment ago may still be what started it,
        so nothing is learnt of that."""
        with suppress(OSError):
            words = (
                Path(f"/proc/{key[0]}/cmdline").read_bytes().decode(errors="replace").split("\0")
            )
            job = job_of(words, os.readlink(f"/proc/{key[0]}/cwd"))
            if job:
                self._known[key] = job

    def _end(self, key: tuple[int, int]) -> None:
        job = self._known.pop(key)
        self.seconds[job] = self.seconds.get(job, 0) + self._live.pop(key)

    def total(self) -> float:
        """Processor seconds so far."""
        return sum(self.seconds.values()) + sum(self._live.values())

    def end(self) -> dict[Job, float]:
        """What was seen, once no process is left."""
        for key in list(self._live):
            self._end(key)
        return self.seconds


def kept_table() -> Path:
    """Where the gate keeps its last measurements on this machine."""
    cache = os.environ.get("XDG_CACHE_HOME") or os.path.join(os.path.expanduser("~"), ".cache")
    return Path(cache, "kistalub/costs.csv")


def read_costs(path: Path) -> dict[Job, float]:
    """The rows of a table; none if there is no such file or it is not such a table."""
    found: dict[Job, float] = {}
    try:
        rows = list(csv.DictReader(io.StringIO(path.read_text(encoding="utf-8"))))
        for row in rows:
            for kind in KINDS:
                if row[kind]:
                    found[row["crate"], kind] = float(row[kind])
    except (OSError, KeyError, TypeError, ValueError):
        return {}
    return found


def known_costs() -> dict[Job, float]:
    """What was measured on this machine, and else what the repository has."""
    return {**read_costs(SNAPSHOT), **read_costs(kept_table())}


def table_text(costs: dict[Job, float]) -> str:
    lines = [",".join(HEAD)]
    for crate in sorted({crate for crate, _ in costs}):
        lines.append(
            ",".join(
                [
                    crate,
                    *(
                        f"{costs[crate, kind]:.0f}" if (crate, kind) in costs else ""
                        for kind in KINDS
                    ),
                ]
            )
        )
    return "\n".join(lines) + "\n"


def keep_costs(seen: dict[Job, float]) -> None:
    """Puts new measurements into the table of this machine. What was not measured stays, and so
    does what edits cost when more of them were tried."""
    path = kept_table()
    kept = read_costs(path)
    new = {
        job: max(took, kept.get(job, 0)) if job[1] == EDITS else took for job, took in seen.items()
    }
    path.parent.mkdir(parents=True, exist_ok=True)
    made = path.with_name(f"{path.name}.{os.getpid()}")
    made.write_text(table_text({**kept, **new}), encoding="utf-8")
    made.replace(path)
