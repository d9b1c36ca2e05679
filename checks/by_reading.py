"""What papi_regions prints, worked out from what papi_run reads at the begins, reads and ends of
the regions."""

from __future__ import annotations

from dataclasses import replace
from pathlib import Path

from running import NO, Program, Run

SCRIPT = "readings"


def by_reading(program: Program, words: list[str], folder: Path) -> Run | None:
    """The run that is wanted of these words, or nothing if it is not worked out: if words are
    changed, or no thread has a line."""
    if (
        words.count("--events") != 1 or words.count("script") != 1 or "--" in words
        or words[-1] == "--events"
    ):
        return None
    place = words.index("--events")
    events = words[place + 1].split(",")
    lines = lines_of((folder / "script").read_bytes())
    if not lines or "script" in events or not all(events):
        return None
    (folder / SCRIPT).write_text("".join(f"{call}\n" for call in calls_for(lines, events)))
    called = ["papi_run", *words[1:place], *words[place + 2 :]]
    run = program.run([SCRIPT if word == "script" else word for word in called], folder)
    if not run.out:
        return None
    replies = [reply.split(" ", 4) for reply in run.out.decode().splitlines()]
    for event, reply in zip(events, replies[1 : 1 + len(events)]):
        if reply[3] != "PAPI_OK":
            return Run(NO, f"{event}: {' '.join(reply[3:])}\n".encode(), b"")
    return replace(run, out=report(lines, replies, 2 + len(events)).encode())


def lines_of(content: bytes) -> list[tuple[int, str, str, str]]:
    """The call lines of a region script: number, thread, call and argument."""
    words = [
        (number, line.split())
        for number, line in enumerate(
            content.decode("latin-1").replace("\r\n", "\n").split("\n"), 1
        )
        if line[:1] != "#"
    ]
    return [(number, *line) for number, line in words if len(line) == 3]


def calls_for(lines: list[tuple[int, str, str, str]], events: list[str]) -> list[str]:
    """A set for each thread, and a call for each line."""
    calls: list[str] = []
    for thread in dict.fromkeys(line[1] for line in lines):
        calls += [
            f"{thread} create", *(f"{thread} add 0 {event}" for event in events),
            f"{thread} start 0",
        ]
    return calls + [
        f"{thread} run {argument}" if call == "run" else f"{thread} read 0"
        for _, thread, call, argument in lines
    ]


def wrapped(value: int) -> int:
    return (value + (1 << 63)) % (1 << 64) - (1 << 63)


def report(
    lines: list[tuple[int, str, str, str]], replies: list[list[str]], setting_up: int
) -> str:
    threads = sorted({int(line[1]) for line in lines})
    opened: dict[int, list[tuple[str, list[int]]]] = {thread: [] for thread in threads}
    totals: dict[int, dict[str, tuple[int, list[int]]]] = {thread: {} for thread in threads}
    shown = []
    for (number, said, call, name), reply in zip(lines, replies[setting_up * len(threads) :]):
        thread = int(said)
        if call == "run":
            continue
        values = [int(value) for value in reply[4].split()]
        if call == "begin":
            opened[thread].append((name, values))
            totals[thread].setdefault(name, (0, [0] * len(values)))
            continue
        counted = [wrapped(value - before) for value, before in zip(values, opened[thread][-1][1])]
        if call == "read":
            shown.append([number, thread, name, *counted])
        else:
            opened[thread].pop()
            instances, sums = totals[thread][name]
            totals[thread][name] = (
                instances + 1, [wrapped(total + value) for total, value in zip(sums, counted)],
            )
    for thread in threads:
        shown += [
            [thread, name, instances, *sums] for name, (instances, sums) in totals[thread].items()
        ]
    return "".join(" ".join(map(str, line)) + "\n" for line in shown)
