"""docs/COUNTED.md: what is counted for each event of a real processor, out of the tables of
tools/processors."""

from __future__ import annotations

from parts.machine import BUFFERS, CACHES, KIB, MACHINES, Machine
from parts.processors import NOTHING, Quantities, Row, Table, read_quantities, tables

HEAD = """\
# Events of real processors

What `tools/record` and `tools/count` count for the events of a real processor, by the names of libpfm4. `tools/make_unit PMU --counted` writes a unit that has these events and no others
([RECORDING](RECORDING.md#codes)). `tools/make_pages` makes this page out of `tools/processors`, where each processor has a table.

## Quantities

Each event is a sum of these. Where an event has one of the sums below, it has each of its quantities.
"""
SUMS = "\nAnd these sums have names:\n"
NEVER = f"""\
`{NOTHING}` never occurs in the model. Each row below is tried by a kernel in assembly, but for those of `{NOTHING}`, and those of 512 bits alone, which Valgrind does not run.
`checks/kernels --processors` prints these for each processor, with the reason ([checks/README](../checks/README.md#kernels))."""
MODELLED = """
## Machines

What `--machine NAME` of `tools/record` and `tools/count` models ([RECORDING](RECORDING.md#the-machine)): each cache with its size and its ways, each translation buffer with its pages and ways.
"""
COLUMNS = ("Event", "What is counted", "What the processor counts otherwise")


def _table(columns: tuple[str, ...], rows: list[tuple[str, ...]]) -> list[str]:
    head, *lines = [f"| {' | '.join(row)} |" for row in [columns, *rows]]
    return [head, "|" + "---|" * len(columns), *lines]


def _names(rows: list[Row]) -> str:
    """The names of rows of one event: the event once."""
    first, *others = (row.name for row in rows)
    return ", ".join([f"`{first}`", *(f"`:{name.partition(':')[2]}`" for name in others)])


def _gathered(table: Table) -> list[list[Row]]:
    """The rows of an event that have the same words, one behind the other."""
    found: dict[tuple[str, str, str], list[Row]] = {}
    for row in table.rows.values():
        found.setdefault((row.key()[0], row.words, row.otherwise), []).append(row)
    return list(found.values())


def _section(table: Table) -> list[str]:
    rows = [
        (_names(rows), ", ".join(f"`{word}`" for word in rows[0].words.split()), rows[0].otherwise)
        for rows in _gathered(table)
    ]
    pmus = ", ".join(f"`{pmu}`" for pmu in table.pmus)
    return ["", f"## {table.title}", "", f"Of {pmus}.", "", *_table(COLUMNS, rows)]


def _quantities(quantities: Quantities) -> list[str]:
    meanings = [(f"`{name}`", text) for name, text in quantities.meanings.items()]
    sums = [
        (f"`{name}`", ", ".join(f"`{part}`" for part in parts))
        for name, parts in quantities.sums.items()
    ]
    return [
        HEAD, *_table(("Quantity", "One occurrence is"), meanings), SUMS,
        *_table(("Sum", "Of"), sums), "", NEVER,
    ]


def _shapes(machine: Machine) -> tuple[str, ...]:
    caches = [
        (shape.lines * shape.line // KIB, shape.ways) for name in CACHES
        if (shape := machine.shapes[name])
    ]
    buffers = [(shape.lines, shape.ways) for name in BUFFERS if (shape := machine.shapes[name])]
    sizes = [
        f"{kib // KIB} MiB, {ways}" if kib % KIB == 0 else f"{kib:,} KiB, {ways}"
        for kib, ways in caches
    ]
    return (*sizes, *(f"{pages} pages, {ways}" for pages, ways in buffers))


def _machines() -> list[str]:
    """Machines with the same parts have one row."""
    named: dict[tuple[str, ...], list[str]] = {}
    for name, machine in MACHINES.items():
        named.setdefault(_shapes(machine), []).append(f"`{name}`")
    columns = ("Machine", *(f"`--{part}`" for part in (*CACHES, *BUFFERS)))
    return [
        MODELLED,
        *_table(columns, [(", ".join(names), *shapes) for shapes, names in named.items()]),
    ]


def counted_page() -> str:
    own: list[Table] = []
    for table in tables().values():
        if table not in own:
            own.append(table)
    lines = _quantities(read_quantities()) + _machines()
    for table in own:
        lines += _section(table)
    return "\n".join(lines) + "\n"
