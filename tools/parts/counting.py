"""A program under our tool of Valgrind, which counts it: as a whole, or its calls of PAPI ask the
tool what it has done."""

from __future__ import annotations

import mmap
import os
import shutil
from dataclasses import dataclass, replace
from functools import partial
from pathlib import Path
from typing import NoReturn

from formats.files import opened
from parts import valgrind
from parts.attended import attend, end_as
from parts.codes import codes_of, name_rowless
from parts.command import Fault, tell
from parts.elf_file import libraries_of
from parts.machine import Machine
from parts.started import temporary_folder
from parts.whole import Outputs, Plan, Run, plan, tell_counts
from parts.whole_words import Whole

FOLDER = Path(__file__).resolve().parent.parent.parent
EXAMPLES = FOLDER / "examples"
INSTALLED_LIBRARY = FOLDER / "library"  # a link of bin/install
BUILD = FOLDER / "c/build"
OWN_FUNCTION = b"kistalub_go"  # PAPI's library has none of this name
PAPI = "libpapi.so"
MOST_MHZ = 1_000_000
CODES = "KISTALUB_CODES"  # of the lines of the unit's events, for the library
NO_STREAM = ("KISTALUB_STREAM", "KISTALUB_STEP")


@dataclass(frozen=True)
class Counting:
    program: str
    arguments: list[str]
    machine: Machine
    library: str | None
    unit: str | None
    presets: str | None
    cpu: str | None
    keep: str | None
    is_strict: bool = False  # about events without a row


def count(counting: Counting, whole: Whole) -> NoReturn:
    """Runs the program under the tool, and ends as it does: what it prints, its signals and its
    status are its own. What could not be done of what was asked is a line, and the status is not 0
    then."""
    program = shutil.which(counting.program)
    if program is None:
        raise Fault(f"{counting.program}: no such program")
    name_rowless(
        named_files(counting.unit, None, None)["KISTALUB_UNIT"], counting.is_strict
    )
    counting = replace(counting, library=_library(counting, program))
    environment = _environment(counting, program, _changes(counting))
    makes_calls = _check_library(program, environment)
    if makes_calls and whole.is_asked() and not whole.is_beside:
        raise Fault(
            f"{counting.program} makes calls of PAPI: --whole counts it as a whole beside them"
        )
    if makes_calls and whole.is_profiled():
        raise Fault(
            f"{counting.program} makes calls of PAPI: a profile is of a program without them"
        )
    outputs = Outputs(whole)
    planned = plan(whole, environment) if whole.is_beside or not makes_calls else None
    end_as(_status_of(counting, whole, program, outputs, planned, environment))


def _status_of(
    counting: Counting,
    whole: Whole,
    program: str,
    outputs: Outputs,
    planned: Plan | None,
    environment: dict[str, str],
) -> int:
    """Of this process: the program's, unless that is 0 and something could not be done."""
    with temporary_folder("count-") as folder:
        words = _words(counting, whole, planned, environment, folder)
        status = attend(partial(_become, counting, program, words))
        run = Run((counting.program, *counting.arguments), folder, status)
        try:
            tell_counts(whole, run, planned, outputs, environment, counting.machine)
        except Fault as fault:
            tell(fault)
            return status or fault.status
    return status


def _environment(counting: Counting, program: str, changes: dict[str, str]) -> dict[str, str]:
    environment = valgrind.environment([program, *counting.arguments], changes)
    return {name: value for name, value in environment.items() if name not in NO_STREAM}


def _words(
    counting: Counting,
    whole: Whole,
    planned: Plan | None,
    environment: dict[str, str],
    totals: Path,
) -> list[str]:
    """Of the tool. If the events are named, and no call is served, it counts nothing else."""
    words = [
        "--trace-children=yes",
        f"--process-totals={totals}",
        "--process=1",
        "--from-entry=yes",
        *_rate(environment),
    ]
    is_partial = planned is not None and whole.events is not None and not whole.is_beside
    words += (
        planned.words(counting.machine) if planned and is_partial else counting.machine.tool_words()
    )
    words += [f"--function={name}" for name in whole.functions]
    words += ["--profile=yes"] * whole.is_profiled()
    return words


def _become(counting: Counting, program: str, words: list[str]) -> NoReturn:
    """In a process of its own, whose streams are kept."""
    changes = _changes(counting)
    if counting.keep:
        changes["KISTALUB_KEEP"] = f"{os.getpid()} {os.path.abspath(counting.keep)}"
    command = valgrind.command(words, program, counting.arguments)
    os.execve(command[0], command, _environment(counting, program, changes))


def _rate(environment: dict[str, str]) -> list[str]:
    """The rate of the clock, for the tool. What is wrong with it the library says."""
    rate = environment.get("KISTALUB_MHZ", "")
    return [f"--mhz={rate}"] if rate.isdecimal() and 1 <= int(rate) <= MOST_MHZ else []


def named_files(unit: str | None, presets: str | None, cpu: str | None) -> dict[str, str]:
    """The files of the library: those that are given, or the environment's, or those of
    recordings."""
    given = {"KISTALUB_UNIT": unit, "KISTALUB_PRESETS": presets, "KISTALUB_CPU": cpu}
    usual = {
        "KISTALUB_UNIT": str(EXAMPLES / "recorded.unit"),
        "KISTALUB_PRESETS": str(EXAMPLES / "recorded.presets"),
        "KISTALUB_CPU": "recorded",
    }
    return {name: given[name] or os.environ.get(name) or usual[name] for name in usual}


def _library(counting: Counting, program: str) -> str | None:
    """The folder of the library: what is named, that of bin/install, or for a program that is
    linked with PAPI and finds no library of ours one that is built here."""
    if counting.library or INSTALLED_LIBRARY.is_dir():
        return counting.library or str(INSTALLED_LIBRARY)
    if not BUILD.is_file() or not _lacks_library(program):
        return None
    from parts.unproved.built_library import built_library  # bin/install leaves it out

    return str(built_library())


def _lacks_library(program: str) -> bool:
    found = list(libraries_of(Path(program), os.environ))
    is_linked = any(name.startswith(PAPI) for each in found for name in each.needed)
    papi = [each.path for each in found if each.path.name.startswith(PAPI)]
    return is_linked and not any(_has_text(path, OWN_FUNCTION) for path in papi)


def _changes(counting: Counting) -> dict[str, str]:
    """What the library is told. Names are found before the program runs, so that none is looked for
    while it counts."""
    changes = {
        **named_files(counting.unit, counting.presets, counting.cpu),
        "KISTALUB_CACHES": counting.machine.caches(),
        "LD_BIND_NOW": "1",
    }
    changes[CODES] = codes_of(changes["KISTALUB_UNIT"]).variable()
    if counting.library:
        paths = [
            valgrind.of_one_length(str(Path(counting.library).resolve())),
            *filter(None, [os.environ.get("LD_LIBRARY_PATH")]),
        ]
        changes["LD_LIBRARY_PATH"] = ":".join(paths)
    return changes


def _check_library(program: str, environment: dict[str, str]) -> bool:
    """Whether a program is linked with our library. One that is linked with PAPI finds ours there,
    and no other."""
    makes_calls = False
    for number, each in enumerate(libraries_of(Path(program), environment)):
        is_papi = each.path.name.startswith(PAPI)
        if is_papi and not _has_text(each.path, OWN_FUNCTION):
            raise Fault(
                f"{program} takes PAPI from {each.path}, which is not that of bin/install "
                "(--library names its folder)"
            )
        makes_calls = makes_calls or is_papi or number == 0 and _has_text(each.path, OWN_FUNCTION)
    return makes_calls


def _has_text(path: Path, text: bytes) -> bool:
    with opened(path) as file, mmap.mmap(file.fileno(), 0, access=mmap.ACCESS_READ) as content:
        return content.find(text) >= 0
