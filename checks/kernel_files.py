"""Kernels in assembly with what each counts, as it was counted by hand (checks/kernels.d)."""

from __future__ import annotations

import re
from collections import Counter
from dataclasses import dataclass, field
from pathlib import Path
from typing import Iterator

from here import CHECKS

from parts.command import Fault

FOLDER = CHECKS / "kernels.d"
TURNS = 1000
FLOATING = [f"{form} {width}" for width in (128, 256) for form in ("double", "single")]
NAMES = {
    "instruction": "instructions",
    "load": "loads",
    "store": "stores",
    "taken": "conditional_taken",
    "not taken": "conditional_not_taken",
    "jump": "jumps",
    "call": "calls",
    "return": "returns",
    "scalar double": "scalar_double",
    "scalar single": "scalar_single",
    "x87": "x87",
    "locked load": "locked_loads",
    **{name: name.replace(" ", "_") for name in FLOATING},
}
MISSES = {
    "load miss": "l1d_load_misses",
    "store miss": "l1d_store_misses",
    "load page miss": "dtlb_load_misses",
    "store page miss": "dtlb_store_misses",
    "split load": "split_loads",
    "split store": "split_stores",
}
OPERATIONS = ("added", "multiplied", "divided", "fused")
ELEMENTS = {
    f"{operation} {form}": f"{operation}_{form}s"
    for operation in OPERATIONS
    for form in ("double", "single")
}
SIDES = ("load", "store", "fetch")
LEVELS = {
    **{name: kind for name, kind in MISSES.items() if "split" not in name},
    "l1i miss": "l1i_misses",
    "itlb miss": "itlb_misses",
    **{
        f"{level} {side} {found}": f"{level}_{side}_{kind}"
        for level in ("l2", "l3")
        for side in SIDES
        for found, kind in (("hit", "hits"), ("miss", "misses"))
    },
}
WRONG = {"wrong taken": "mispredicted_taken", "wrong not taken": "mispredicted_not_taken"}
# What only the kernels of some files know.
FURTHER = {"lines": MISSES, "elements": ELEMENTS, "levels": LEVELS, "predicted": WRONG}
COSTS = {"l2": 8, "l3": 38, "memory": 200, "page": 20}  # in cycles (docs/RECORDING.md)


@dataclass
class Kernel:
    """Lines that run so many times, what stands around them, and what all of it counts."""

    name: str
    body: list[str]
    each: Counter[str]
    file: str  # where it stands, without its ending
    turns: int = TURNS
    begins_page: bool = False
    first: list[str] = field(default_factory=list)
    last: list[str] = field(default_factory=list)
    after: list[str] = field(default_factory=list)
    whole: Counter[str] = field(default_factory=Counter)
    by_lines: Counter[
        str
    ] | None = None  # the accesses of each turn, if an instruction with rep accesses each line once

    def wanted(self, by_lines: bool = False) -> dict[str, int]:
        """Of each kind that is known: the body's, those of the loop around it, and of what runs
        once. Without the return."""
        each = (
            {**self.each, "loads": 0, "stores": 0, **self.by_lines}
            if by_lines and self.by_lines is not None
            else self.each
        )
        total = Counter({kind: count * self.turns for kind, count in each.items()}) + self.whole
        total["instructions"] += 1 + len(self.first) + 2 * self.turns + len(self.last)
        total["conditional_taken"] += self.turns - 1
        total["conditional_not_taken"] += 1
        known = [*NAMES.values(), *FURTHER.get(self.file, {}).values()]
        return {kind: total[kind] for kind in known}

    def derived(self) -> dict[str, int]:
        """What follows from what the levels serve, if no branch is predicted."""
        counts = self.wanted()
        pages = sum(counts[f"{buffer}_misses"] for buffer in ("dtlb_load", "dtlb_store", "itlb"))
        stalls = COSTS["page"] * pages
        for side in SIDES:
            stalls += COSTS["l2"] * counts[f"l2_{side}_hits"]
            stalls += COSTS["l3"] * counts[f"l3_{side}_hits"]
            stalls += COSTS["memory"] * counts[f"l3_{side}_misses"]
        hits = counts["loads"] - counts["l1d_load_misses"]
        return {"load_hits": hits, "stalls": stalls, "cycles": counts["instructions"] + stalls}

    def text(self) -> str:
        """For GNU's assembler."""
        lines = [
            f".p2align {12 if self.begins_page else 6}",
            f".globl kernel_{self.name}\n.type kernel_{self.name}, @function",
            f"kernel_{self.name}:",
            f"mov ${self.turns},%r15d",
            *self.first,
            "9:",
            *self.body,
            "dec %r15d",
            "jnz 9b",
            *self.last,
            "ret",
            *self.after,
            f".size kernel_{self.name}, .-kernel_{self.name}",
        ]
        return "\n".join(lines) + "\n"


def read_counts(text: str, place: str) -> Counter[str]:
    counts: Counter[str] = Counter()
    for part in text.split(","):
        found = re.fullmatch(r"(\d+) (.+)", part.strip())
        name = re.sub(r"(?<=miss)es$|(?<!s)s$", "", found[2]) if found else ""
        kind = {**NAMES, **MISSES, **ELEMENTS, **LEVELS, **WRONG}.get(name)
        if not found or kind is None:
            raise Fault(f"{place}: no count: {part.strip()}")
        counts[kind] += int(found[1])
    return counts


def whole_lines(text: str) -> Iterator[tuple[int, str]]:
    """The lines with their numbers. One that ends where a part of it may goes on in the next."""
    begun = ""
    for number, line in enumerate(text.splitlines(), 1):
        begun = f"{begun} {line.strip()}" if begun else line.rstrip()
        if begun.endswith((" ;", " =", ",")) and not begun.startswith("#"):
            continue
        yield number, begun
        begun = ""


def take_further(kernel: Kernel, word: str, rest: str, place: str) -> None:
    """A line below a kernel's own."""
    if word == "turns":
        kernel.turns = int(rest)
    elif word == "page":
        kernel.begins_page = True
    elif word == "whole":
        kernel.whole += read_counts(rest, place)
    elif word == "by":
        kernel.by_lines = read_counts(rest.removeprefix("lines "), place)
    elif word in ("first", "last", "after"):
        getattr(kernel, word).append(rest)
    else:
        raise Fault(f"{place}: {word}: no such word")


def read_kernels(path: Path) -> list[Kernel]:
    """`NAME: LINE ; LINE = COUNTS` of one turn, and below it, indented, what else there is of
    it."""
    kernels: list[Kernel] = []
    for number, line in whole_lines(path.read_text(encoding="ascii")):
        place = f"{path.name}:{number}"
        word, _, rest = line.strip().partition(" ")
        if not word or word == "#":
            continue
        if line.startswith(" "):
            take_further(kernels[-1], word, rest, place)
            continue
        body, _, counts = rest.rpartition(" = ")
        each = read_counts(counts, place)
        kernels.append(Kernel(word.removesuffix(":"), body.split(" ; "), each, path.stem))
    return kernels


def all_kernels() -> list[Kernel]:
    kernels = [kernel for path in sorted(FOLDER.glob("*.kernels")) for kernel in read_kernels(path)]
    twice = [
        name for name, count in Counter(kernel.name for kernel in kernels).items() if count > 1
    ]
    if twice:
        raise Fault(f"{FOLDER}: two kernels are named {twice[0]}")
    return kernels


def assembly(kernels: list[Kernel]) -> str:
    """All kernels, an empty one, and the table that the harness has of them."""
    table = "".join(
        f".quad 7f, kernel_{kernel.name}\n"
        f'.pushsection .rodata\n7: .asciz "{kernel.name}"\n.popsection\n'
        for kernel in kernels
    )
    return (
        ".text\n"
        + "".join(kernel.text() for kernel in kernels)
        + ".globl kernel_empty\nkernel_empty: ret\n"
        + ".data\n.p2align 4\n.globl kernels\nkernels:\n"
        + table
        + '.quad 0, 0\n.section .note.GNU-stack,"",@progbits\n'
    )
