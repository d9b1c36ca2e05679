"""Counting a whole program: which events are asked for, what they need of the tool, and what is
told when the program has ended."""

from __future__ import annotations

import sys
from contextlib import suppress
from collections import Counter
from dataclasses import dataclass, replace
from pathlib import Path
from typing import IO, Mapping, Sequence

from formats.texts import plain
from parts.command import Fault, tell
from parts.callgrind_file import callgrind_text
from parts.code_profile import CodeProfile
from parts.call_names import call_name
from parts.codes import codes_of
from parts.count_files import as_csv, as_json
from parts.count_table import table
from parts.event_sums import Files, Sum, sums_of, values_of
from parts.kinds import Kind, kinds_with, mask_of, reduced
from parts.machine import Machine
from parts.papi_program import prepare_program
from parts.processes import Process, numbered, read_processes
from parts.profile_counts import ProfileCounts, as_further_json, profile_counts, profile_table
from parts.profile_page.making import profile_page
from parts.whole_counts import ProcessCounts, ThreadCounts, WholeCounts
from parts.whole_words import Whole

USUAL = (
    "PAPI_TOT_INS",
    "PAPI_TOT_CYC",
    "PAPI_LD_INS",
    "PAPI_SR_INS",
    "PAPI_L1_DCM",
    "PAPI_L3_TCM",
    "PAPI_BR_INS",
    "PAPI_BR_MSP",
    "PAPI_FP_OPS",
)


class Outputs:
    """The files for what is counted. They are opened before the program runs, so that one that
    can't be written is known then."""

    def __init__(self, whole: Whole):
        self.files: dict[str, IO[str]] = {}
        names = {"table": whole.table, "json": whole.json, "csv": whole.csv}
        for kind, name in {**names, "callgrind": whole.callgrind, "page": whole.page}.items():
            if name is not None:
                try:
                    self.files[kind] = open(
                        name, "w", encoding="utf-8", errors="surrogateescape", newline=""
                    )
                except OSError as error:
                    raise Fault(f"{name}: {error.strerror}") from None

    def write(self, kind: str, text: str) -> None:
        file = self.files[kind]
        try:
            file.write(text)
            file.close()
        except OSError as error:
            with suppress(OSError):
                file.close()
            raise Fault(f"{file.name}: {error.strerror}") from None


@dataclass(frozen=True)
class Plan:
    """The events and what one occurrence of each kind adds to them, asked of the program once."""

    files: Mapping[str, str]
    kinds: Sequence[Kind]
    sums: Sequence[Sum]

    def needed(self) -> set[str]:
        return {name for each in self.sums for name in each.kinds()}

    def words(self, machine: Machine) -> list[str]:
        """Of the tool, for a run that counts nothing else."""
        return [
            f"--kinds={mask_of(list(self.kinds), self.needed()):#x}",
            *reduced(machine, self.needed()).tool_words(),
        ]


def _files(named: Mapping[str, str]) -> Files:
    return Files(named["KISTALUB_UNIT"], named["KISTALUB_PRESETS"], named["KISTALUB_CPU"])


def plan(whole: Whole, named: Mapping[str, str]) -> Plan:
    """A fault says which event can't be counted."""
    prepare_program()
    files = _files(named)
    kinds = kinds_with(codes_of(files.unit))
    names = USUAL if whole.events is None else whole.events.split(",")
    sums = sums_of(files, names, kinds, needs_all=whole.events is not None)
    for each in sums:
        if each.rule and whole.is_profiled():
            raise Fault(
                f"{each.name} is no sum over functions: its formula multiplies or divides counts"
            )
    if not sums:
        raise Fault(
            f"{files.presets} has none of the usual presets for {files.cpu}: --events names others"
        )
    return Plan(named, kinds, sums)


def _renumbered(process: Process) -> dict[int, Counter[str]]:
    return dict(enumerate(process.threads.values(), start=1))


def counts_of(
    plan: Plan, processes: Sequence[Process], command: Sequence[str], status: int
) -> WholeCounts:
    """All values at once, since the program is asked for those of rules."""
    scopes: list[Counter[str]] = []
    for process in processes:
        scopes += [process.total(), *process.threads.values()]
    whole = sum((process.total() for process in processes), Counter[str]())
    *values, total = values_of(_files(plan.files), plan.sums, [*scopes, whole])
    numbers, found, rest = numbered(list(processes)), list[ProcessCounts](), iter(values)
    for process in processes:
        of_process = next(rest)
        threads = tuple(ThreadCounts(number, next(rest)) for number in _renumbered(process))
        found.append(
            ProcessCounts(
                numbers[process.way],
                numbers.get(process.way[:-1], 0),
                process.program,
                of_process,
                threads,
            )
        )
    events = tuple(each.name for each in plan.sums)
    return WholeCounts(tuple(command), events, total, tuple(found), 0, status)


def _never_called(whole: Whole, processes: Sequence[Process]) -> list[str]:
    """The named functions that were not called."""
    called = sum((process.called for process in processes), Counter[int]())
    return [name for number, name in enumerate(whole.functions) if not called[number]]


def _what_is_missing(program: str, first: Process | None, status: int) -> str | None:
    if first is None:
        return f"{program} can't be run under valgrind"
    if not first.has_ended and status < 0:
        return f"{program} was killed (signal {-status}): what it did is not known"
    if not first.has_ended:
        last = plain(first.program)
        return f"{program} became a program that can't be counted, after {last}"
    if not first.total():
        return f"{program} ended before its entry: nothing was counted"
    return None


@dataclass(frozen=True)
class Run:
    """A run that has ended."""

    command: tuple[str, ...]
    folder: Path
    status: int


def tell_counts(
    whole: Whole,
    run: Run,
    planned: Plan | None,
    outputs: Outputs,
    named: Mapping[str, str],
    machine: Machine,
) -> None:
    """Writes the counts. A fault says what could not be done of what was asked."""
    program, processes = run.command[0], read_processes(run.folder)
    if any(process.is_refused for process in processes):
        raise Fault(f"{program} makes calls of PAPI: --whole counts it as a whole beside them")
    missing = _what_is_missing(
        program, processes[0] if processes and processes[0].way == (1,) else None, run.status
    )
    if any(process.calls for process in processes) and not whole.is_beside:
        _tell_order(processes)
        if whole.is_asked():
            raise Fault(
                f"{program} makes calls of PAPI, which have had its counts: --whole counts it as a "
                "whole beside them"
            )
        return
    shown_ones = processes if whole.children else processes[:1]
    _tell_order(shown_ones)
    never = _never_called(whole, shown_ones)
    if processes and never and len(never) == len(whole.functions):
        raise Fault(f"{program} never called {', '.join(never)}: nothing was counted")
    if missing and not any(process.total() for process in processes[:1]):
        raise Fault(missing)
    planned = planned or plan(whole, named)
    counts = replace(
        counts_of(planned, shown_ones, run.command, run.status),
        uncounted_children=len(processes) - len(shown_ones),
        functions=whole.functions,
    )
    profile = None
    if whole.is_profiled():
        merged = CodeProfile()
        for process in shown_ones:
            merged.add(process.profile)
        profile = profile_counts(merged, planned.sums)
    _write(counts, profile, outputs, named, machine)
    if never:
        raise Fault(f"{program} never called {', '.join(never)}")
    if missing:
        raise Fault(missing)


def _tell_order(processes: Sequence[Process]) -> None:
    """A line, if another run may have another order of threads."""
    for process in processes:
        if process.undetermined is not None:
            tell(
                f"the order of the threads of {plain(process.program)} was not determined: "
                f"{call_name(process.undetermined)} was answered from outside while others ran"
            )
            return


def _write(
    counts: WholeCounts,
    profile: ProfileCounts | None,
    outputs: Outputs,
    named: Mapping[str, str],
    machine: Machine,
) -> None:
    text = table(counts) + (profile_table(profile, counts.total) if profile else "")
    if "table" in outputs.files:
        outputs.write("table", text)
    else:
        sys.stderr.write(text)
    if counts.uncounted_children:
        number = counts.uncounted_children
        processes = "1 child process" if number == 1 else f"{number:,} child processes"
        tell(f"{processes} not counted (--children counts them too)")
    if "json" in outputs.files:
        further = as_further_json(profile) if profile else {}
        outputs.write("json", as_json(counts, named, machine, further))
    if "csv" in outputs.files:
        outputs.write("csv", as_csv(counts))
    if "callgrind" in outputs.files and profile:
        outputs.write("callgrind", callgrind_text(counts, profile))
    if "page" in outputs.files and profile:
        outputs.write("page", profile_page(counts, profile))
