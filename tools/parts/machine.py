"""The machine that a recording models: caches, translation buffers, a predictor of branches, and
what a miss costs (docs/RECORDING.md)."""

from __future__ import annotations

from dataclasses import dataclass, field, replace

from parts.command import Fault

MOST_WAYS = 128
MOST_LINES = 1 << 24
MOST_COST = 10_000
PREDICTOR_BITS = range(1, 25)
CACHES = ("l1d", "l1i", "l2", "l3")
BUFFERS = ("dtlb", "itlb")
REP = ("turns", "lines")
COSTS = ("L2", "L3", "MEMORY", "PAGE", "BRANCH")


@dataclass(frozen=True)
class Shape:
    """Lines in all, lines in a set, bytes in a line."""

    lines: int
    ways: int
    line: int

    def word(self) -> str:
        return f"{self.lines},{self.ways},{self.line}"

    def option(self, name: str) -> str:
        """As the option of its name takes it."""
        return f"{self.lines * (1 if name in BUFFERS else self.line)},{self.ways},{self.line}"


@dataclass(frozen=True)
class Machine:
    """What is left out has no shape."""

    shapes: dict[str, Shape | None] = field(default_factory=dict)
    predictor: int = 14  # the number of counters as a power of two
    costs: tuple[int, ...] = (8, 38, 200, 20, 16)
    rep: str = REP[0]  # what an instruction with rep accesses

    def with_shapes(self, shapes: dict[str, Shape | None]) -> Machine:
        return replace(self, shapes={**self.shapes, **shapes})

    def caches(self) -> str:
        """As the library for C takes them: KISTALUB_CACHES."""
        known = [(name, shape) for name, shape in self.shapes.items() if shape]
        return " ".join(f"{name}={shape.option(name)}" for name, shape in known)

    def tool_words(self) -> list[str]:
        """As our tool of Valgrind takes them."""
        shapes = [
            f"--{name}={shape.word() if shape else 'none'}" for name, shape in self.shapes.items()
        ]
        return [
            "--model=yes", f"--predictor={self.predictor}",
            f"--costs={','.join(map(str, self.costs))}", f"--rep={self.rep}", *shapes,
        ]


def _numbers(text: str, form: str) -> list[int]:
    try:
        numbers = [int(word) for word in text.split(",")]
    except ValueError:
        numbers = []
    if len(numbers) != 3 or min(numbers) < 1:
        raise Fault(f"{text}: {form}")
    return numbers


def _checked(text: str, shape: Shape) -> Shape:
    sets = shape.lines // shape.ways
    if sets * shape.ways != shape.lines or sets & (sets - 1) or shape.line & (shape.line - 1):
        raise Fault(f"{text}: the number of sets and the bytes of a line are powers of two")
    if shape.ways > MOST_WAYS or shape.lines > MOST_LINES:
        raise Fault(f"{text}: at most {MOST_WAYS} ways and {MOST_LINES:,} lines")
    return shape


def read_cache(text: str) -> Shape | None:
    """The shape `SIZE,WAYS,LINE`, in bytes but for the ways, or none."""
    if text == "none":
        return None
    size, ways, line = _numbers(
        text, "a cache is SIZE,WAYS,LINE with three numbers, such as 32768,8,64, or none"
    )
    if size % (ways * line):
        raise Fault(f"{text}: a cache has the size of its sets times WAYS times LINE")
    return _checked(text, Shape(size // line, ways, line))


def read_buffer(text: str) -> Shape | None:
    """The shape `ENTRIES,WAYS,PAGE`, or none."""
    if text == "none":
        return None
    entries, ways, page = _numbers(
        text,
        "a translation buffer is ENTRIES,WAYS,PAGE with three numbers, such as 64,4,4096, or none",
    )
    return _checked(text, Shape(entries, ways, page))


def read_costs(text: str) -> tuple[int, ...]:
    """Cycles of an access that the second level serves, the third, the memory, of a page that is
    missed, and of a mispredicted branch."""
    words = text.split(",")
    if len(words) != len(COSTS) or not all(
        word.isdecimal() and int(word) <= MOST_COST for word in words
    ):
        raise Fault(
            f"{text}: costs are {','.join(COSTS)}: five numbers of cycles, such as 8,38,200,20,16, "
            f"each at most {MOST_COST:,}"
        )
    return tuple(map(int, words))


def read_predictor(text: str) -> int:
    if not text.isdecimal() or int(text) not in PREDICTOR_BITS:
        raise Fault(f"{text}: a predictor has 2^N counters, with an N from 1 to 24")
    return int(text)


def _machine(l1d: str, l1i: str, l2: str, l3: str, dtlb: str, itlb: str) -> Machine:
    caches = dict(zip(CACHES, map(read_cache, (l1d, l1i, l2, l3))))
    buffers = dict(zip(BUFFERS, map(read_buffer, (dtlb, itlb))))
    return Machine({**caches, **buffers})


KIB = 1024
LINE, PAGE = 64, 4096
FIRST = (32, 8)  # KiB and ways, of a first level


def _processor(
    l1d: tuple[int, int], l1i: tuple[int, int], l2: tuple[int, int], l3: tuple[int, int],
    dtlb: tuple[int, int], itlb: tuple[int, int],
) -> Machine:
    """Caches by their KiB and ways, buffers by their pages and ways."""
    caches = dict(
        zip(
            CACHES,
            (
                _checked(str(size), Shape(size * KIB // LINE, ways, LINE))
                for size, ways in (l1d, l1i, l2, l3)
            ),
        )
    )
    buffers = dict(
        zip(
            BUFFERS,
            (_checked(str(pages), Shape(pages, ways, PAGE)) for pages, ways in (dtlb, itlb)),
        )
    )
    return Machine({**caches, **buffers})


def _of_cores(
    l1d: tuple[int, int], l2: tuple[int, int], slice_kib: int, ways: int, cores: int,
    itlb: tuple[int, int] = (128, 8), dtlb: tuple[int, int] = (64, 4),
) -> Machine:
    """One of Intel's: the third level has a slice for each core."""
    return _processor(l1d, FIRST, l2, (slice_kib * cores, ways), dtlb, itlb)


# The first level of buffers, and the last cache of a processor with a number of cores that is a
# power of two, since that of its sets is one here, or of AMD's complex of cores, by the numbers in
# the makers' manuals. checks/machines compares them with what the processors answer to CPUID.
MACHINES = {
    "snb": _of_cores(FIRST, (256, 8), 2048, 16, 4, (128, 4)),
    "snb_ep": _of_cores(FIRST, (256, 8), 2560, 20, 8, (128, 4)),
    "ivb": _of_cores(FIRST, (256, 8), 2048, 16, 4, (128, 4)),
    "ivb_ep": _of_cores(FIRST, (256, 8), 2560, 20, 8, (128, 4)),
    "hsw": _of_cores(FIRST, (256, 8), 2048, 16, 4),
    "hsw_ep": _of_cores(FIRST, (256, 8), 2560, 20, 8),
    "bdw": _of_cores(FIRST, (256, 8), 2048, 16, 2),
    "bdw_ep": _of_cores(FIRST, (256, 8), 2560, 20, 8),
    "skl": _of_cores(FIRST, (256, 4), 2048, 16, 4),
    "skx": _of_cores(FIRST, (1024, 16), 1408, 11, 16),
    "clx": _of_cores(FIRST, (1024, 16), 1408, 11, 16),
    "icl": _of_cores((48, 12), (512, 8), 2048, 16, 4),
    "icx": _of_cores((48, 12), (1280, 20), 1536, 12, 16),
    "spr": _of_cores((48, 12), (2048, 16), 1920, 15, 16, (256, 8)),
    "zen1": _processor(FIRST, (64, 4), (512, 8), (8192, 16), (64, 64), (64, 64)),
    "zen2": _processor(FIRST, FIRST, (512, 8), (16384, 16), (64, 64), (64, 64)),
    "zen3": _processor(FIRST, FIRST, (512, 8), (32768, 16), (64, 64), (64, 64)),
    "zen4": _processor(FIRST, FIRST, (1024, 8), (32768, 16), (72, 72), (64, 64)),
}


def machine_name(pmu: str) -> str:
    """The machine of a PMU of libpfm4."""
    return pmu.rpartition("_")[2] if pmu.startswith("amd64_") else pmu
