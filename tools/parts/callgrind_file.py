"""A profile in the file format of callgrind, which callgrind_annotate and KCachegrind open."""

from __future__ import annotations

import shlex
from typing import Iterator

from parts.profile_counts import ProfileCounts, ProfiledCalls, ProfiledFunction, ProfiledLine
from parts.whole_counts import Counts, WholeCounts

UNKNOWN = "???"


class _Names:
    """Each name has a number where it stands first, and then the number alone."""

    def __init__(self) -> None:
        self.numbers: dict[tuple[str, str], int] = {}
        self.counts: dict[str, int] = {}

    def word(self, space: str, name: str) -> str:
        name = " ".join(name.split()) or UNKNOWN
        known = self.numbers.get((space, name))
        if known is not None:
            return f"({known})"
        number = self.counts[space] = self.counts.get(space, 0) + 1
        self.numbers[space, name] = number
        return f"({number}) {name}"


def callgrind_text(counts: WholeCounts, profile: ProfileCounts) -> str:
    return "".join(f"{line}\n" for line in _lines(counts, profile))


def _costs(line: int, events: tuple[str, ...], counts: Counts) -> str:
    return " ".join([str(line), *(str(counts[event]) for event in events)])


def _lines(counts: WholeCounts, profile: ProfileCounts) -> Iterator[str]:
    yield from ("# callgrind format", "version: 1", "creator: kistalub")
    yield f"cmd: {' '.join(shlex.join(counts.command).split())}"
    yield from ("positions: line", f"events: {' '.join(counts.events)}", "")
    names = _Names()
    own: dict[object, list[ProfiledLine]] = {}
    calls: dict[object, list[ProfiledCalls]] = {}
    for line in profile.lines:
        own.setdefault(line.function.key, []).append(line)
    for call in profile.calls:
        calls.setdefault(call.caller.key, []).append(call)
    for each in profile.functions:
        yield from _function(
            each, own.get(each.key, []), calls.get(each.key, []), names, counts.events
        )
    yield f"totals: {' '.join(str(counts.total[event]) for event in counts.events)}"


def _function(
    function: ProfiledFunction,
    own: list[ProfiledLine],
    calls: list[ProfiledCalls],
    names: _Names,
    events: tuple[str, ...],
) -> Iterator[str]:
    yield f"ob={names.word('ob', function.key[0])}"
    yield f"fl={names.word('fl', function.file)}"
    yield f"fn={names.word('fn', function.name)}"
    here = function.file
    for line in sorted(own, key=lambda each: (each.file != here, each.file, each.line)):
        if line.file != here:
            here = line.file
            yield f"fi={names.word('fl', here)}"
        yield _costs(line.line, events, line.own)
    for call in calls:
        if call.file != here:
            here = call.file
            yield f"fi={names.word('fl', here)}"
        yield f"cob={names.word('ob', call.callee.key[0])}"
        yield f"cfi={names.word('fl', call.callee.file)}"
        yield f"cfn={names.word('fn', call.callee.name)}"
        yield f"calls={call.count} {call.callee.line}"
        yield _costs(call.line, events, call.inclusive)
    yield ""
