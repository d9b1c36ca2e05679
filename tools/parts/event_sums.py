"""What events count in totals. The proved program is asked: each event counts a stream with lines
of each kind, and so it is known what one occurrence of the kind adds."""

from __future__ import annotations

import re
from dataclasses import dataclass, field
from pathlib import Path
from typing import Container, Mapping, NoReturn, Sequence

from parts.command import Fault
from parts.started import temporary_folder
from parts.kinds import Kind
from parts.event_refusals import refusals_of
from parts.papi_program import ask_program, cause_of

MOST_THREADS = 64  # of a script
AMOUNTS = (
    1,
    255,
    255,
)  # of the lines of a kind: what counts lines or edges does not count their amounts
MOST_VALUES = 256  # user events of a preset file
PRESET_SIGN = "PAPI_"
POSTFIX = "DERIVED_POSTFIX"
COUNT = re.compile("N([0-9]+)")
WRAP = 1 << 64


@dataclass(frozen=True)
class Files:
    unit: str
    presets: str
    cpu: str

    def words(self) -> list[str]:
        return ["-U", self.unit, "-P", self.presets, "-C", self.cpu]


@dataclass(frozen=True)
class Rule:
    """A formula in postfix order over counts of native events."""

    tokens: tuple[str, ...]
    natives: tuple[str, ...]

    def is_linear(self) -> bool:
        """Whether it only adds, subtracts, and multiplies by numbers, so that the value of a sum is
        the sum of the values."""
        degrees: list[int | None] = []  # of what waits: 0 a number, 1 a sum of counts, None neither
        for token in self.tokens:
            if token not in "+-*/":
                degrees.append(1 if COUNT.fullmatch(token) else 0)
                continue
            right, left = degrees.pop(), degrees.pop()
            if token == "/" or None in (left, right):
                degrees.append(None)
            elif token == "*":
                degrees.append(left + right if left + right < 2 else None)  # type: ignore[operator]
            else:
                degrees.append(left if left == right else None)
        return degrees == [1]


@dataclass(frozen=True)
class Sum:
    """What an event adds for one occurrence of each kind; or the rule, if it is not a sum."""

    name: str
    weights: Mapping[str, int]
    rule: Rule | None = None
    of_natives: tuple[Mapping[str, int], ...] = ()

    def kinds(self) -> set[str]:
        return {
            name
            for weights in (self.weights, *self.of_natives)
            for name, weight in weights.items()
            if weight
        }


@dataclass
class _Asked:
    """The events that are asked for, and those that their rules name."""

    files: Files
    names: list[str] = field(default_factory=list)
    rules: dict[str, Rule] = field(default_factory=dict)


def sums_of(
    files: Files, names: Sequence[str], kinds: Sequence[Kind], needs_all: bool = True
) -> list[Sum]:
    """The sums of events. A name that a set refuses is a fault with PAPI's code, or is left out if
    not all are needed. An event that nothing counts is a fault."""
    asked = _Asked(files, list(dict.fromkeys(names)), _rules(files, names))
    _check_form(asked.names)
    natives = [native for rule in asked.rules.values() for native in rule.natives]
    weights = _weights(
        files, list(dict.fromkeys([*asked.names, *natives])), kinds, asked.rules.keys()
    )
    if needs_all and any(name not in weights for name in asked.names):
        _tell_refused(files, asked.names)
    sums = [_sum(name, asked, weights) for name in asked.names if name in weights]
    for each in sums:
        if not each.kinds():
            raise Fault(
                f"{each.name} counts nothing: no kind of occurrence that is counted here counts "
                "for it (docs/RECORDING.md)"
            )
    return sums


def _sum(name: str, asked: _Asked, weights: Mapping[str, Mapping[str, int]]) -> Sum:
    rule = asked.rules.get(name)
    return (
        Sum(name, {}, rule, tuple(weights[native] for native in rule.natives))
        if rule
        else Sum(name, weights[name])
    )


def _rules(files: Files, names: Sequence[str]) -> dict[str, Rule]:
    """The rules of those that are no sums."""
    found: dict[str, Rule] = {}
    decoded = ask_program("papi_decode", *files.words(), "--quiet")
    if decoded.returncode:
        raise Fault(
            cause_of(decoded.stderr) or f"papi_decode: status {decoded.returncode}",
            decoded.returncode,
        )
    for row in decoded.stdout.splitlines():
        fields = row.split(",")
        if len(fields) < 5 or fields[2] != POSTFIX or fields[1] not in names:
            continue
        rule = Rule(tuple(fields[3].rstrip("|").split("|")), tuple(fields[4:]))
        if not rule.is_linear():
            found[fields[1]] = rule
    return found


# -- the program's answers --


def _check_form(names: Sequence[str]) -> None:
    for name in names:
        if not name or re.search(r"[^!-~]", name):
            raise Fault(
                f"{name!r} is no name of an event: it has characters from ! to ~ (--events takes "
                "names with commas between them)"
            )


def _tell_refused(files: Files, names: Sequence[str]) -> NoReturn:
    """The code and the hint of the first one that a set refuses."""
    for each in refusals_of(files.words(), names):
        raise Fault(str(each))
    raise Fault("a set takes each of the events, and papi_run counted not all of them")


def _weights(
    files: Files, names: Sequence[str], kinds: Sequence[Kind], ruled: Container[str]
) -> dict[str, dict[str, int]]:
    """Of all that a set takes, and nothing for those with rules."""
    found: dict[str, dict[str, int]] = {}
    with temporary_folder("count-") as folder:
        lines = [
            f"{head} {amount} 0\n" for kind in kinds for amount in AMOUNTS for head in kind.heads
        ]
        (folder / "stream").write_text("".join(lines), encoding="ascii")
        for first in range(0, len(names), MOST_THREADS):
            found.update(
                _weights_of(files, names[first : first + MOST_THREADS], kinds, ruled, folder)
            )
    return found


def _weights_of(
    files: Files, names: Sequence[str], kinds: Sequence[Kind], ruled: Container[str], folder: Path
) -> dict[str, dict[str, int]]:
    """Each event has a thread of its own, with the same stream."""
    calls = [
        f"run {len(kind.heads) * lines}\nread 0"
        for kind in kinds
        for lines in (1, len(AMOUNTS) - 1)
    ]
    script = [
        f"{thread} {call}\n"
        for thread, name in enumerate(names)
        for call in "\n".join(["create", f"add 0 {name}", "start 0", *calls]).split("\n")
    ]
    (folder / "script").write_text("".join(script), encoding="ascii")
    done = ask_program(
        "papi_run",
        *files.words(),
        "--quiet",
        str(folder / "script"),
        *[str(folder / "stream")] * len(names),
    )
    values: dict[int, list[int]] = {}
    for words in map(str.split, done.stdout.splitlines()):
        if words[2] == "read" and words[4:]:
            values.setdefault(int(words[1]), [0]).append(int(words[4]))
    if done.returncode:
        raise Fault(
            cause_of(done.stderr) or f"papi_run can't be asked: status {done.returncode}",
            done.returncode,
        )
    taken = {name: values[thread] for thread, name in enumerate(names) if thread in values}
    return {
        name: {} if name in ruled else _weights_from(name, told, kinds)
        for name, told in taken.items()
    }


def _weights_from(name: str, values: Sequence[int], kinds: Sequence[Kind]) -> dict[str, int]:
    weights: dict[str, int] = {}
    for number, kind in enumerate(kinds):
        before, once, whole = values[2 * number : 2 * number + 3]
        weights[kind.name] = once - before
        if whole - before != (once - before) * sum(AMOUNTS):
            raise Fault(
                f"{name} counts lines of a stream, and not what happens (c=N, e): a count of a "
                "whole program has no lines"
            )
    return weights


# -- values --


def _signed(value: int) -> int:
    value %= WRAP
    return value - WRAP if value >= WRAP // 2 else value


def added_up(weights: Mapping[str, int], totals: Mapping[str, int]) -> int:
    return _signed(sum(weight * totals.get(name, 0) for name, weight in weights.items()))


def values_of(
    files: Files, sums: Sequence[Sum], scopes: Sequence[Mapping[str, int]]
) -> list[dict[str, int]]:
    """The values of all events over the totals of each scope."""
    values = [
        {each.name: 0 if each.rule else added_up(each.weights, totals) for each in sums}
        for totals in scopes
    ]
    ruled = [(each, number) for each in sums if each.rule for number in range(len(scopes))]
    for first in range(0, len(ruled), MOST_VALUES):
        part = ruled[first : first + MOST_VALUES]
        for (each, number), value in zip(
            part, _by_rule(files, [(each, scopes[number]) for each, number in part])
        ):
            values[number][each.name] = value
    return values


def _by_rule(files: Files, asked: Sequence[tuple[Sum, Mapping[str, int]]]) -> list[int]:
    """The program computes the formulas with the counts in place of their names."""
    rows = ["CPU,counted\n"]
    calls: list[str] = []
    for number, (each, totals) in enumerate(asked):
        assert each.rule
        counts = [str(added_up(weights, totals)) for weights in each.of_natives]
        tokens = [
            counts[int(match[1])] if (match := COUNT.fullmatch(token)) else token
            for token in each.rule.tokens
        ]
        rows.append(f"EVENT,V{number},{POSTFIX},{'|'.join(tokens)}|,{each.rule.natives[0]}\n")
        thread, place = number % MOST_THREADS, number // MOST_THREADS
        calls += [
            f"{thread} {call}\n"
            for call in ("create", f"add {place} V{number}", f"start {place}", f"stop {place}")
        ]
    with temporary_folder("count-") as folder:
        (folder / "presets").write_text("".join(rows), encoding="ascii")
        (folder / "script").write_text("".join(calls), encoding="ascii")
        done = ask_program(
            "papi_run",
            "-U",
            files.unit,
            "-P",
            str(folder / "presets"),
            "-C",
            "counted",
            "--quiet",
            str(folder / "script"),
        )
    stops = [
        words
        for words in map(str.split, done.stdout.splitlines())
        if words[2] == "stop" and words[3] == "PAPI_OK"
    ]
    if done.returncode or len(stops) != len(asked):
        raise Fault(f"papi_run can't be asked: status {done.returncode}: {cause_of(done.stderr)}")
    return [int(words[4]) for words in stops]
