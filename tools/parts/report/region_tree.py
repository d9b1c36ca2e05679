"""Regions as a tree: what papi_regions counts, by the way from the outermost region.

A region script whose regions are named by their way is run, so a region that stands in two others
has its counts in each.
"""

from __future__ import annotations

from dataclasses import dataclass, field
from typing import Sequence

from formats.scripts import Call, calls_of
from parts.command import Fault
from parts.report.asking import SAYS_NO, Tools, read_again


@dataclass
class Region:
    name: str
    thread: int
    key: str  # its name in the script that is run
    instances: int = 0
    values: tuple[int, ...] = ()
    inner: list[Region] = field(default_factory=list)

    def own(self) -> tuple[int, ...]:
        """What it counted outside of its inner regions."""
        return tuple(
            value - sum(region.values[place] for region in self.inner)
            for place, value in enumerate(self.values)
        )


class _Growing:
    def __init__(self) -> None:
        self.roots: list[Region] = []
        self.all: list[Region] = []
        self.open: dict[int, list[Region]] = {}
        self.lines: list[str] = []

    def take(self, call: Call) -> None:
        open_regions = self.open.setdefault(call.thread, [])
        name = call.arguments[0]
        if call.name == "run":
            self.lines.append(f"{call.thread} run {name}")
        elif call.name == "begin":
            region = self._inner(call.thread, open_regions, name)
            open_regions.append(region)
            self.lines.append(f"{call.thread} begin {region.key}")
        elif call.name == "end":
            self.lines.append(f"{call.thread} end {open_regions.pop().key}")

    def _inner(self, thread: int, open_regions: list[Region], name: str) -> Region:
        siblings = open_regions[-1].inner if open_regions else self.roots
        found = next(
            (region for region in siblings if (region.name, region.thread) == (name, thread)), None
        )
        if found is None:
            found = Region(name, thread, f"r{len(self.all)}")
            siblings.append(found)
            self.all.append(found)
        return found


def read_tree(tools: Tools, regions: str, events: str, streams: Sequence[str]) -> list[Region]:
    """The outermost regions of a region script, thread by thread, with the counts of these
    events."""
    answer = tools.ask("papi_regions", [f"--events={events}"], [regions, *streams], hints=True)
    if answer.status == SAYS_NO:
        said, *more = [*answer.lines, *answer.said()]
        raise Fault(said, more=more)
    growing = _Growing()
    for call in calls_of(read_again(regions)):
        growing.take(call)
    answer = tools.ask(
        "papi_regions", [f"--events={events}"], [tools.written("regions", growing.lines), *streams]
    )
    by_key = {region.key: region for region in growing.all}
    for line in answer.lines:
        thread, key, instances, *values = line.split()
        by_key[key].instances, by_key[key].values = int(instances), tuple(map(int, values))
    return sorted(growing.roots, key=lambda region: region.thread)
