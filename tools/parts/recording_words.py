"""The words of tools/record and of tools/count. Both say what the machine is like."""

from __future__ import annotations

import argparse
from typing import Any, Callable

from parts.command import Fault, Parser
from parts.machine import (
    BUFFERS, CACHES, COSTS, MACHINES, Machine, REP, read_buffer, read_cache, read_costs,
    read_predictor,
)
from parts.whole_words import add_whole

MOST_WINDOW = 1 << 40
NAMES = {
    "l1d": "first-level data cache",
    "l1i": "first-level instruction cache",
    "l2": "second-level cache",
    "l3": "third-level cache",
    "dtlb": "translation buffer for data",
    "itlb": "translation buffer for instructions",
}


def word(read: Callable[[str], Any]) -> Callable[[str], Any]:
    """What reads a word, with its fault as argparse wants it."""

    def reading(text: str) -> Any:
        try:
            return read(text)
        except Fault as fault:
            raise argparse.ArgumentTypeError(str(fault)) from None

    return reading


def _window(text: str) -> int:
    if not text.isdecimal() or not 1 <= int(text) <= MOST_WINDOW:
        raise Fault(f"{text}: a window has at least 1 instruction")
    return int(text)


def record_words(name: str) -> argparse.ArgumentParser:
    parser = Parser(
        prog=name,
        description="Runs a program under valgrind and writes a stream of what it does: "
        "instructions, loads, stores, misses of caches and "
        "translation buffers, branches, floating-point operations and cycles, each with its "
        "program counter. examples/recorded.unit has their "
        "events. The first line, a comment, says where the program was loaded; make_map --stream "
        "reads it.",
    )
    parser.add_argument(
        "-o",
        metavar="STREAM",
        dest="stream",
        help="the file to write; %%r in its name stands for the rank of a process of MPI, and with "
        "%%t each thread "
        "has a file with its number from 0 on; without -o the stream goes to standard output, and "
        "the program's own output "
        "to standard error",
    )
    _add_strict(parser)
    parser.add_argument(
        "--only-calls",
        action="store_true",
        help="record only between calls of PAPI, while an event set counts: for programs with "
        "the library of bin/install",
    )
    _add_machine(parser)
    _add_lines(parser)
    _add_program(parser)
    return parser


def count_words(name: str) -> argparse.ArgumentParser:
    parser = Parser(
        prog=name,
        description="Runs a program under a tool of Valgrind, counts what it does from its entry "
        "to "
        "its end, and prints a table. If the program makes PAPI's calls, each call gets the counts "
        "of its own thread instead. Such a program is linked with the library of bin/install, or "
        "with PAPI, and then finds our libpapi.so.7.0. What the program prints and its status are "
        "its own.",
    )
    parser.add_argument(
        "--library",
        metavar="FOLDER",
        help="the folder with libpapi.so.7.0 of bin/install, for a program that is linked with "
        "PAPI. "
        "An installed tool knows its own",
    )
    parser.add_argument(
        "--unit", metavar="UNIT",
        help=(
            "the unit file, such as one of make_unit --counted (examples/recorded.unit, or "
            "KISTALUB_UNIT)"
        ),
    )
    parser.add_argument(
        "--presets", metavar="PRESETS",
        help="the preset file (examples/recorded.presets, or KISTALUB_PRESETS); goes with --cpu",
    )
    parser.add_argument(
        "--cpu", metavar="CPU", help="the processor of the preset file (recorded, or KISTALUB_CPU)"
    )
    _add_strict(parser)
    add_whole(parser)
    lines = parser.add_argument_group("the stream")
    lines.add_argument(
        "--keep",
        metavar="STREAM",
        help="write what happens while a set of a thread counts to this file; %%t in its name "
        "stands for the number of the "
        "thread, and %%r for the rank of a process of MPI; without %%t only the first thread is "
        "kept",
    )
    _add_machine(parser)
    _add_program(parser)
    return parser


def _add_strict(parser: argparse.ArgumentParser) -> None:
    parser.add_argument(
        "--strict",
        action="store_true",
        help="refuse a unit with events that have no row in the table of its processor; without it "
        "a line names these, and they "
        "count nothing",
    )


def _add_machine(parser: argparse.ArgumentParser) -> None:
    machine = parser.add_argument_group("the machine that is modelled (docs/RECORDING.md)")
    machine.add_argument(
        "--machine", choices=MACHINES, default="skl",
        help="the processor whose caches and buffers are modelled (skl)",
    )
    for name in CACHES:
        machine.add_argument(
            f"--{name}", metavar="SIZE,WAYS,LINE", type=word(read_cache), default=argparse.SUPPRESS,
            help=(
                f"another {NAMES[name]}, such as 32768,8,64 (bytes, lines in a set, bytes in a "
                "line), or none"
            ),
        )
    for name in BUFFERS:
        machine.add_argument(
            f"--{name}", metavar="ENTRIES,WAYS,PAGE", type=word(read_buffer),
            default=argparse.SUPPRESS, help=f"another {NAMES[name]}, such as 64,4,4096, or none",
        )
    machine.add_argument(
        "--predictor", metavar="N", type=word(read_predictor), default=14,
        help="predict branches by 2^N counters of two bits (14)",
    )
    machine.add_argument(
        "--costs",
        metavar=",".join(COSTS),
        type=word(read_costs),
        default=Machine().costs,
        help="cycles beside the one of each instruction: of an access that the second level, the "
        "third or the memory serves, "
        "of a page that is missed, and of a mispredicted branch (8,38,200,20,16)",
    )
    machine.add_argument(
        "--rep",
        choices=REP,
        default=REP[0],
        help="what an instruction with rep loads and stores: an element in each of its turns, or "
        "each line of 64 bytes once (turns)",
    )


def _add_program(parser: argparse.ArgumentParser) -> None:
    parser.add_argument("program", metavar="PROGRAM", help="the program to run")
    parser.add_argument(
        "arguments", metavar="ARGS", nargs=argparse.REMAINDER, help="its words"
    ).required = False


def _add_lines(parser: argparse.ArgumentParser) -> None:
    lines = parser.add_argument_group("the stream")
    lines.add_argument(
        "--from", metavar="SYMBOL", dest="symbol",
        help="begin when the program first enters this function",
    )
    lines.add_argument(
        "--unit",
        metavar="UNIT",
        help="the unit file whose events are to count the stream: one that make_unit --counted "
        "wrote, or one with the codes of "
        "examples/recorded.unit",
    )
    lines.add_argument(
        "--each",
        action="store_true",
        help="write a line for each instruction, load and so on, in order; without it, those at "
        "one "
        "place are gathered to lines of up to 255",
    )
    lines.add_argument(
        "--window",
        metavar="N",
        type=word(_window),
        default=65_536,
        help="gather among N instructions (65536): a larger one gives a "
        "smaller stream, a smaller one keeps their order better",
    )
    lines.add_argument(
        "--first-thread",
        action="store_true",
        help="record the first thread alone; without it a second thread ends "
        "the recording into one file, but for processes of MPI",
    )


def machine_of(words: argparse.Namespace) -> Machine:
    shapes = {name: getattr(words, name) for name in (*CACHES, *BUFFERS) if hasattr(words, name)}
    named = MACHINES[words.machine].with_shapes(shapes)
    return Machine(named.shapes, words.predictor, words.costs, words.rep)
