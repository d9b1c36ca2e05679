"""Unit files, preset files, scripts, region scripts, streams, names and words at random: mostly in
their form, and then changed here and there."""

from __future__ import annotations

from dataclasses import dataclass, field
from pathlib import Path
from random import Random

from formats.scripts import CALLS
from running import EXAMPLES, RUNNING

NUMBERS = [
    "0", "1", "2", "3", "5", "8", "31", "32", "33", "63", "64", "65", "255", "256", "500", "1000",
    "65535", "65536", "1000000", "1000001",
    "2147483648", "4294967294", "4294967295", "4294967296", "9223372036854775807",
    "9223372036854775808", "18446744073709551615",
    "18446744073709551616", "99999999999999999999999", "00", "01", "-1", "+1", "0x1", "1e3", " ",
    "",
]
WIDTHS = [
    "16", "16", "17", "32", "40", "47", "48", "48", "15", "49", "0", "016", "999999999999999999999",
    "x", "",
]
NAMES = [
    "A", "B", "C", "CYCLES", "cycles", "MISS-1", "x_2", "P0", "P1", "u", "c", "A" * 64, "A" * 65,
    "\u00e9", "", "a b", "PAPI_X", "0",
]
ENDS = ["\n", "\n", "\n", "\n", "\n", "\r\n", "\r", "", "\n\n"]
# tools/make_presets: begin
SYMBOLS = (
    "PAPI_L1_DCM", "PAPI_L1_ICM", "PAPI_L2_DCM", "PAPI_L2_ICM", "PAPI_L1_TCM", "PAPI_L2_TCM",
    "PAPI_L3_TCM", "PAPI_TLB_DM", "PAPI_TLB_IM", "PAPI_L1_LDM", "PAPI_L1_STM", "PAPI_BR_UCN",
    "PAPI_BR_CN", "PAPI_BR_TKN", "PAPI_BR_NTK", "PAPI_BR_MSP", "PAPI_BR_PRC", "PAPI_TOT_INS",
    "PAPI_LD_INS", "PAPI_SR_INS", "PAPI_BR_INS", "PAPI_RES_STL", "PAPI_TOT_CYC", "PAPI_LST_INS",
    "PAPI_FP_OPS", "PAPI_REF_CYC",
)
# tools/make_presets: end
DRAWN_SYMBOLS = [
    *SYMBOLS, "PAPI_TOT_INS", "PAPI_BR_INS", "PAPI_RES_STL", "PAPI_BR_PRC", "papi_tot_ins",
    "PAPI_NOPE", "PAPI_",
]
TYPES = ["NOT_DERIVED", "DERIVED_ADD", "DERIVED_SUB", "DERIVED_POSTFIX", "DERIVED_INFIX"] * 3 + [
    "DERIVED_PS", "DERIVED_ADD_PS", "DERIVED_CMPD", "not_derived", "DERIVED_X", "",
]  # fmt: skip
TOKENS = [
    "N0", "N1", "N0", "N1", "+", "-", "*", "/", "0", "1", "2", "1000000", "N2", "N7", "N8", "#",
    "x", "", " ", "-1", "9223372036854775808",
]
OPERANDS = [
    "N0", "N1", "N0", "N1", "0", "1", "2", "7", "1000000", "N2", "N7", "9223372036854775807",
]
INFIX = [
    *OPERANDS, "+", "-", "*", "/", "(", ")", "(", ")", " ", "\t", "N", "N8", "#", "x", "00", "01",
    "-1", "9223372036854775808", "N0N1", "|",
]
USER_EVENTS = ["OWN", "W1", "own", "STALL2", "CYCLES", "2", "_", "u", "U" * 32]
ODD_USER_EVENTS = [
    "U" * 33, "PAPI_X", "PAPI_TOT_INS", "papi_x", "a-b", "", "a b", "\u00e9", "PAPI_",
]
OFTEN = (
    ["add"] * 6 + ["start"] * 3 + ["run"] * 5 + ["read"] * 3 + ["stop"] * 2 + ["overflow"] * 3
    + ["multiplex"] * 2 + list(CALLS)
)
CODES = [
    "0x40000000", "0x40000001", "0x80000032", "0x8000003b", "0x0", "0xffffffff", "0x",
    "0x123456789", "40000000", "0XFF",
]
SMALL = ["0", "1", "2", "3", "4", "31", "32"]
SLICES = ["0", "1", "2", "3", "15", "16", "1000", "1000000", "1000001", "4294967295"]
# What is drawn of each kind of argument, but for events.
ARGUMENTS = {
    "SET": ["0", "0", "0", "0", "1", "2", "63", "64", "4294967295"], "COMPONENT": SLICES,
    "BITS": SMALL, "SLICE": SLICES, "COUNTER": SMALL,
    "THRESHOLD": [
        "0", "255", "256", "256", "300", "1000", "1000", "65535", "65536", "281474976710655",
        "18446744073709551615",
    ],
    "N": ["0", "1", "2", "5", "20", "100", "1000", "4294967295"], "CODE": CODES[:6],
}  # fmt: skip
MODIFIERS = [
    "u", "k", "e", "i", "u=0", "k=1", "e=y", "i=n", "c=0", "c=1", "c=2", "c=255", "c=0xff", "c=256",
    "c=01", "c", "u=2", "u=", "=1", "x", "",
]


STREAMS = 3
ODD_FILES = ["absent", "folder", "unit/x", "/dev/null", "/dev/zero", "/proc/self/mem", ""]
ODD_WORDS = [
    "", "-", "--", "-U", "-P", "-C", "-a", "-e", "-x", "--notes", "--workers", "--events", "--help",
    "-h", "--version", "-Uunit", "x" * 5000,
]


@dataclass
class Drawn:
    """A unit file, with the names and codes that stand in it."""

    text: str
    events: list[str] = field(default_factory=list)
    umasks: list[str] = field(default_factory=list)
    selects: list[str] = field(default_factory=list)
    prefixes: list[str] = field(default_factory=list)

    @classmethod
    def of(cls, text: str) -> Drawn:
        drawn = cls(text)
        for line in text.splitlines():
            fields = line.split(",")
            if fields[0] == "EVENT" and len(fields) > 2:
                drawn.events.append(fields[1])
                drawn.selects.append(fields[2])
            elif fields[0] == "UMASK" and len(fields) > 1:
                drawn.umasks.append(fields[1])
            elif fields[0] == "COMPONENT" and len(fields) > 2:
                drawn.prefixes += [
                    f"{fields[1]}:::", f"{fields[2]}::", f"{fields[1]}:::{fields[2]}::",
                ]
        return drawn


def example(name: str) -> str:
    return (EXAMPLES / name).read_text()


def rarely(rng: Random, one_in: int) -> bool:
    return rng.randrange(one_in) == 0


def unit(rng: Random) -> Drawn:
    kind = rng.randrange(10)
    if kind < 4:
        return Drawn.of(example("lab.unit"))
    if kind == 4:
        return Drawn.of(changed(rng, example("lab.unit")))
    text = "".join(
        component(rng, number)
        for number in range(rng.choice([0, 16, 17]) if rarely(rng, 15) else rng.randint(1, 3))
    )
    return Drawn.of(changed(rng, text) if rarely(rng, 6) else text)


def component(rng: Random, number: int) -> str:
    rows = [f"COMPONENT,comp{number},pmu{number}"]
    counters = [
        f"P{index}"
        for index in range(rng.choice([0, 8, 32, 33]) if rarely(rng, 15) else rng.randint(1, 5))
    ]
    fault = rarely(rng, 30)
    for counter in counters:
        width = rng.choice(WIDTHS if fault else WIDTHS[:8])
        rows.append(f"COUNTER,{counter},{width},{rng.choice('PPPF')}")
    for event in range(rng.choice([1024, 1025]) if rarely(rng, 60) else rng.randint(0, 12)):
        if not counters:
            break
        allowed = " ".join(rng.sample(counters, rng.randint(1, min(4, len(counters)))))
        rows.append(
            f"EVENT,{rng.choice(NAMES) if fault else f'E{event}'},{rng.randrange(256):02x},"
            f"{allowed},{rng.choice(['', 'Text', 'x' * 200])}"
        )
        for umask in range(
            rng.choice([16, 17]) if rarely(rng, 150) else rng.choice([0, 0, 1, 2, 3])
        ):
            flags = rng.choice(
                ["-", "-", "n", "d" if umask == 0 else "-", "dn" if umask == 0 else "n"]
            )
            rows.append(
                f"UMASK,{rng.choice(NAMES) if fault else f'U{umask}'},{rng.randrange(256):02x},"
                f"{flags},A umask"
            )
    return "\n".join(rows) + "\n"


def name(rng: Random, drawn: Drawn) -> str:
    """The name of an event, or of a preset, or a text that is like one."""
    if rarely(rng, 6):
        return rng.choice(DRAWN_SYMBOLS + USER_EVENTS)
    text = rng.choice(drawn.prefixes) if drawn.prefixes and rarely(rng, 3) else ""
    text += rng.choice(drawn.events) if drawn.events and not rarely(rng, 15) else rng.choice(NAMES)
    for _ in range(rng.choice([0, 0, 0, 1, 1, 2, 3])):
        text += ":" + (
            rng.choice(drawn.umasks) if drawn.umasks and rarely(rng, 2) else rng.choice(MODIFIERS)
        )
    if rarely(rng, 5):
        text = text.swapcase()
    return with_bytes_changed(rng, text) if rarely(rng, 25) else text


def printable(text: str) -> str:
    """What of a text may stand in a word of a script and in a field of a table."""
    return "".join(letter for letter in text if "!" <= letter <= "~" and letter != ",")


def presets(rng: Random, drawn: Drawn) -> str:
    kind = rng.randrange(6)
    if kind < 2:
        return example("lab.presets")
    if kind == 2:
        return changed(rng, example(rng.choice(["lab.presets", "user_events.presets"])))
    rows = ["CPU,lab1" if not rarely(rng, 20) else "# none"]
    fault = rarely(rng, 3)
    for _ in range(rng.randint(0, 30)):
        rows.append(
            rng.choice(["CPU,lab1", "CPU,lab2", "cpu,other", "EVENT,x"]) if rarely(rng, 8)
            else preset(rng, drawn, fault)
        )
    text = rng.choice(["\n", "\n", "\r\n"]).join(rows) + "\n"
    return changed(rng, text) if fault and rarely(rng, 2) else text


def preset(rng: Random, drawn: Drawn, fault: bool) -> str:
    """A row of a preset or of a user event."""
    derived = rng.choice(TYPES if fault else TYPES[:15])
    count = (
        rng.choice([1, 1, 2, 2, 3, 8, 9]) if fault else 1 if derived == "NOT_DERIVED"
        else rng.randint(2, 8)
    )
    natives = [
        name(rng, drawn) if fault else printable(name(rng, drawn)) or "x" for _ in range(count)
    ]
    fields = ["PRESET", rng.choice(DRAWN_SYMBOLS), derived]
    if rarely(rng, 3):
        fields[:2] = ["EVENT", rng.choice(USER_EVENTS + ODD_USER_EVENTS if fault else USER_EVENTS)]
    if derived == "DERIVED_POSTFIX":
        fields.append(
            "|".join(rng.choice(TOKENS) for _ in range(rng.randint(0, 40))) if fault
            else formula(rng, len(natives))
        )
    elif derived == "DERIVED_INFIX":
        fields.append(
            "".join(rng.choice(INFIX) for _ in range(rng.randint(0, 40))) if fault
            else infix(rng, len(natives), rng.randint(0, 6))
        )
    return rng.choice([",", ",", ", "]).join(
        fields + natives + rng.choice([[], [], ["NOTE", "a note"]])
    )


def formula(rng: Random, natives: int) -> str:
    tokens, waiting = [], 0
    for _ in range(rng.randint(1, 40)):
        if waiting >= 2 and rng.randrange(2):
            tokens.append(rng.choice("+-*/"))
            waiting -= 1
        elif waiting < 16:
            tokens.append(
                rng.choice(
                    [
                        f"N{rng.randrange(natives)}", f"N{rng.randrange(natives)}",
                        str(rng.randrange(100)), "9223372036854775807",
                    ]
                )
            )
            waiting += 1
    return "|".join(tokens + [rng.choice("+-*/") for _ in range(waiting - 1)]) + "|"


def infix(rng: Random, natives: int, depth: int) -> str:
    """A formula in infix order, with parentheses at most so deep."""
    blank = rng.choice(["", "", " ", "\t"])
    parts = []
    for _ in range(rng.randint(1, 4)):
        if depth and rarely(rng, 3):
            parts.append(f"({infix(rng, natives, depth - 1)})")
        else:
            parts.append(
                rng.choice(
                    [
                        f"N{rng.randrange(natives)}", f"N{rng.randrange(natives)}",
                        str(rng.randrange(100)), "9223372036854775807",
                    ]
                )
            )
        parts.append(f"{blank}{rng.choice('+-*/')}{blank}")
    return "".join(parts[:-1])


def script(rng: Random, drawn: Drawn) -> str:
    kind = rng.randrange(10)
    if kind == 0:
        return changed(
            rng,
            example(rng.choice(["overflow", "threads", "presets", "turns", "first"]) + ".script"),
        )
    if kind == 1 and rarely(rng, 10):
        return rng.choice(
            ["0 create\n", "63 threads\n", "0 code CYCLES\n", "# none\n"]
        ) * rng.choice([99_999, 100_000, 100_001])
    threads = rng.choice(
        [
            ["0"], ["0"], ["0", "1"], ["0", "1", "2"], ["3", "0", "63"],
            [str(thread) for thread in range(64)],
        ]
    )
    lines = [
        line for thread in threads
        for line in (f"{thread} create", f"{thread} add 0 {printable(name(rng, drawn)) or 'x'}")
        if not rarely(rng, 10)
    ]
    lines += [
        call_line(rng, rng.choice(threads), drawn, rarely(rng, 1000))
        for _ in range(rng.choice([0, 5, 20, 60, 300]))
    ]
    text = "\n".join(lines) + rng.choice(ENDS)
    return changed(rng, text) if rarely(rng, 6) else text


def call_line(rng: Random, thread: str, drawn: Drawn, fault: bool) -> str:
    call = rng.choice(OFTEN)
    words = [
        thread if not fault else rng.choice(NUMBERS),
        call if not fault or rarely(rng, 2) else rng.choice(["READ", "creat", "", "x" * 5000]),
    ]
    words += [argument(rng, kind, drawn, fault) for kind in CALLS[call]]
    if fault and rarely(rng, 3):
        words.append(rng.choice(NUMBERS))
    return rng.choice([" ", " ", " ", "  ", "\t", " \t "]).join(words)


def argument(rng: Random, kind: str, drawn: Drawn, fault: bool) -> str:
    if fault:
        return rng.choice(NUMBERS)
    return printable(name(rng, drawn)) or "x" if kind == "EVENT" else rng.choice(ARGUMENTS[kind])


REGIONS = ["outer", "inner", "loop", "a", "b", "A", "x_2", "1-2", "-", "r" * 64]
MOST_OPEN = 32


def regions(rng: Random) -> str:
    """A region script of papi_regions."""
    kind = rng.randrange(10)
    if kind == 0:
        return changed(rng, example("regions.script"))
    if kind == 1 and rarely(rng, 10):
        return rng.choice(
            ["0 run 0\n", "63 run 1\n", "# none\n", "0 begin a\n0 end a\n"]
        ) * rng.choice([44_999, 45_000, 45_001, 89_999, 90_000, 90_001])
    threads = rng.choice(
        [
            ["0"], ["0"], ["0", "1"], ["0", "1", "2"], ["3", "0", "63"],
            [str(thread) for thread in range(64)],
        ]
    )
    opened: dict[str, list[str]] = {thread: [] for thread in threads}
    fault, begins = rarely(rng, 8), ["begin"] * (40 if rarely(rng, 12) else 2)
    lines = []
    for _ in range(rng.choice([0, 5, 20, 60, 300])):
        thread = rng.choice(threads)
        lines.append(
            region_line(
                rng, thread, opened[thread],
                rng.choice([*begins, "run", "run", "read", "end", "end"]),
                fault and rarely(rng, 60),
            )
        )
    for thread, names in opened.items():
        lines += [f"{thread} end {inner}" for inner in reversed(names) if not rarely(rng, 400)]
    text = "\n".join(lines) + rng.choice(ENDS)
    return changed(rng, text) if rarely(rng, 6) else text


def region_line(rng: Random, thread: str, opened: list[str], call: str, fault: bool) -> str:
    """A line of a thread with these open regions, of which it may begin or end one."""
    if (
        call in ("read", "end") and not opened or call == "begin" and len(opened) >= MOST_OPEN
        and not rarely(rng, 50)
    ):
        call = "run"
    if call == "run":
        argument = rng.choice(["0", "1", "2", "5", "20", "100", "4294967295"])
    elif call == "begin":
        argument = rng.choice(REGIONS)
        opened.append(argument)
    else:
        argument = opened[-1] if call == "read" else opened.pop()
    words = [thread, call, argument]
    if fault:
        words[rng.randrange(3)] = rng.choice(
            NUMBERS + NAMES + REGIONS + ["begin", "read", "end", "run", "BEGIN", "start", "r" * 65]
        )
    if fault and rarely(rng, 4):
        words.append(rng.choice(NUMBERS))
    return rng.choice([" ", " ", " ", "  ", "\t", " \t "]).join(words)


def event_list(rng: Random, drawn: Drawn) -> str:
    """The events of papi_regions, with commas between them."""
    count = rng.choice([31, 32, 33]) if rarely(rng, 30) else rng.choice([1, 1, 2, 2, 3, 5])
    if drawn.events and not rarely(rng, 3):
        plain = rng.sample(drawn.events, min(count, len(drawn.events)))
        names = [
            (printable(event) or "x") + rng.choice(["", "", ":u", ":k", ":e", ":c=2"])
            for event in plain
        ]
        names += rng.sample(DRAWN_SYMBOLS + USER_EVENTS, rng.choice([0, 0, 1]))
    else:
        names = [printable(name(rng, drawn)) or "x" for _ in range(count)]
    if rarely(rng, 15):
        names.insert(
            rng.randint(0, len(names)), rng.choice(["", " ", "a b", "\u00e9", "\x7f", names[0]])
        )
    return ",".join(names)


def address_map(rng: Random) -> str:
    """A map file of papi_profil."""
    if rarely(rng, 4):
        text = example("profil.map")
        return changed(rng, text) if rarely(rng, 2) else text
    rows, start, fault = [], 0, rarely(rng, 20)
    for number in range(rng.choice([0, 1024, 1025]) if rarely(rng, 40) else rng.randint(1, 6)):
        width, buckets = rng.choice([1, 2, 4, 16, 1_048_576]), rng.choice([1, 1, 2, 10, 64])
        matter = [f"r{number}", f"{start:#x}", str(width), str(buckets)]
        if fault and rarely(rng, 3):
            matter[rng.randrange(4)] = rng.choice(NUMBERS + NAMES)
        rows.append(",".join(["RANGE", *matter]))
        start = start + width * buckets + rng.choice([0, 0, 1, 100]) - (1 if rarely(rng, 60) else 0)
    text = "\n".join(rows) + rng.choice(ENDS)
    return changed(rng, text) if rarely(rng, 10) else text


def stream(rng: Random, drawn: Drawn) -> str:
    kind = rng.randrange(10)
    if kind == 0:
        return changed(
            rng,
            example(
                rng.choice(
                    [
                        "overflow.stream", "threads.0.stream", "turns.stream", "presets.stream",
                        "regions.stream",
                    ]
                )
            ),
        )
    stamped = rarely(rng, 3)
    lines, stamp = (["version 2"], rng.randrange(3)) if stamped else ([], 0)
    selects = drawn.selects or ["c0"]
    for _ in range(rng.choice([0, 1, 10, 60, 400])):
        matter = [
            rng.choice(["0", "0", "0", "1", "2", "15"]), rng.choice(selects),
            rng.choice(["00", "01", "02", "03", "ff"]), rng.choice("uuuk"),
        ]
        fields = [
            *matter, rng.choice(["1", "1", "2", "7", "100", "254", "255"]),
            f"{rng.randrange(1 << rng.choice([1, 24, 64])):x}",
        ]
        if stamped:
            fields.append(str(stamp))
            stamp += rng.choice([1, 1, 1, 2, 5, 100, 100_000_000])
        if rarely(rng, 400):
            fields[rng.randrange(len(fields))] = rng.choice(NUMBERS + ["10", "g0", "z", "x" * 130])
        lines.append(" ".join(fields))
    text = "\n".join(lines) + rng.choice(ENDS)
    return changed(rng, text) if rarely(rng, 6) else text


def changed(rng: Random, text: str) -> str:
    """The text with a few changes of lines, fields and characters."""
    for _ in range(rng.choice([1, 1, 2, 4])):
        text = rng.choice([with_lines_changed, with_fields_changed, with_bytes_changed])(rng, text)
    return text


def with_lines_changed(rng: Random, text: str) -> str:
    lines = text.splitlines(keepends=True) or [""]
    index, other = rng.randrange(len(lines)), rng.randrange(len(lines))
    change = rng.randrange(6)
    if change == 0:
        del lines[index]
    elif change == 1:
        lines.insert(other, lines[index])
    elif change == 2:
        lines[index], lines[other] = lines[other], lines[index]
    elif change == 3:
        lines[index] = lines[index].rstrip("\n") + rng.choice(ENDS)
    elif change == 4:
        lines.insert(
            index,
            rng.choice(
                [
                    "#\n", "\n", " \n", "#" * 129 + "\n", "\ufeff", "version 2\n", ",\n",
                    "x" * 300 + "\n",
                ]
            ),
        )
    else:
        lines = lines[:index] * rng.choice([0, 1, 2, 20])
    return "".join(lines)


def with_fields_changed(rng: Random, text: str) -> str:
    lines = text.splitlines(keepends=True) or [""]
    index = rng.randrange(len(lines))
    between = "," if "," in lines[index] else " "
    fields = lines[index].rstrip("\n").split(between)
    place = rng.randrange(len(fields))
    change = rng.randrange(4)
    if change == 0:
        del fields[place]
    elif change == 1:
        fields.insert(place, fields[rng.randrange(len(fields))])
    else:
        fields[place] = rng.choice(NUMBERS + NAMES + WIDTHS + TYPES + TOKENS + DRAWN_SYMBOLS)
    lines[index] = between.join(fields) + "\n"
    return "".join(lines)


def with_bytes_changed(rng: Random, text: str) -> str:
    place = rng.randint(0, len(text))
    added = rng.choice(
        [
            chr(rng.randrange(128)), "\0", "\r", "\n", "\t", " ", ",", ":", "=", '"', "'", "\u00ff",
            "\ufeff", "x" * 200,
        ]
    )
    return text[:place] + rng.choice([added, ""]) + text[place + rng.choice([0, 1, 1, 2]) :]


def file(rng: Random, name: str) -> str:
    """The name of a file, or now and then of one that is not a plain file."""
    return rng.choice(ODD_FILES) if rarely(rng, 50) else name


def words_of(rng: Random, tool: str, drawn: Drawn) -> list[str]:
    """The words of a call over the files `unit`, `presets`, `script` and `stream0` to `stream2`."""
    options = [["-U", file(rng, "unit")]]
    table = [
        ["-P", file(rng, "presets")], ["-C", rng.choice(["lab1", "lab1", "lab2", "other", "none"])],
    ]
    others: list[str] = []
    if (
        tool in ("papi_decode", "papi_avail") or tool in (*RUNNING, "papi_event_chooser")
        and rng.randrange(2)
    ):
        options += table
    if tool in ("papi_decode", "papi_avail") and rng.randrange(2):
        options.append(["-a"])
    if tool in ("papi_avail", "papi_native_avail") and rng.randrange(2):
        options.append(
            ["-e", rng.choice(DRAWN_SYMBOLS) if tool == "papi_avail" else name(rng, drawn)]
        )
    if tool == "papi_native_avail":
        options += [
            [option, rng.choice(["E", "lab", "::", "", "X", "BR"])] for option in ("-i", "-x")
            if rarely(rng, 2)
        ]
        options += [["--noumasks"]] * rng.randrange(2)
    if tool == "papi_profil":
        options += [["-M", file(rng, "map")]]
        options += [
            [option, rng.choice(["0", "0", "1", "31", "63", "64"])]
            for option in ("--thread", "--set", "--index") if rarely(rng, 3)
        ]
    if tool == "papi_run":
        options += [["--notes"]] * rng.randrange(2)
    if tool == "papi_regions":
        options += [["--events", event_list(rng, drawn)]]
    if tool in RUNNING:
        options += [["--workers", rng.choice(["1", "2", "3", "64", "0", "65", "02"])]] * rarely(
            rng, 3
        )
        others = [file(rng, "script")] + [
            file(rng, f"stream{index}") for index in range(rng.randint(0, 3))
        ]
        others += ["stream0"] * (rng.choice([60, 61, 62]) if rarely(rng, 20) else 0)
    elif tool == "papi_event_chooser":
        others = [rng.choice(["NATIVE", "PRESET"])] + [
            name(rng, drawn) for _ in range(rng.choice([1, 2, 3, 32, 33]))
        ]
    elif tool == "papi_encode":
        others = [name(rng, drawn) for _ in range(rng.choice([1, 2, 5, 40]))]
    elif tool == "papi_soak":
        options = [["--workers", rng.choice(["1", "2", "3", "64", "0"])]] * rng.randrange(2)
        others = [rng.choice(["1", "2", "7", "20", "100", "1000", "0", "1001", "x"])]
    # (no word can hold a NUL)
    return [word.replace("\0", "") for word in [tool] + arranged(rng, options, others)]


def arranged(rng: Random, options: list[list[str]], others: list[str]) -> list[str]:
    """The options before, between and after the other words, some with their values attached, and
    now and then a change."""
    parts = [[word] for word in others]
    for option in options:
        if len(option) == 2 and rarely(rng, 5):
            option = [
                rng.choice(["", "="]).join(option) if len(option[0]) == 2 else "=".join(option)
            ]
        parts.insert(rng.randint(0, len(parts)), option)
    words = [word for part in parts for word in part]
    return words_changed(rng, words) if rarely(rng, 8) else words


def words_changed(rng: Random, words: list[str]) -> list[str]:
    words = list(words) or [""]
    place = rng.randrange(len(words))
    change = rng.randrange(7)
    if change == 0:
        del words[place]
    elif change == 1:
        words.insert(place, rng.choice(words))
    elif change == 2:
        words[place] = rng.choice(ODD_WORDS)
    elif change == 3:
        words.insert(place, "--")
    elif change == 4:
        words[place] = rng.choice([*ODD_FILES, "script", "unit", "presets", "stream0", *NUMBERS])
    elif change == 5:
        words[place] = with_bytes_changed(rng, words[place])
    else:
        rng.shuffle(words)
    return words


def case(rng: Random, tool: str, folder: Path) -> list[str]:
    """Writes the files of a case, and gives its words."""

    def write(name: str, text: str) -> None:
        (folder / name).write_bytes(
            text.encode("latin-1" if text.isascii() or rng.randrange(2) else "utf-8", "replace")
        )

    drawn = unit(rng)
    write("unit", drawn.text)
    write("presets", presets(rng, drawn))
    runs = tool in RUNNING
    write("map", address_map(rng) if tool == "papi_profil" else "")
    write("script", regions(rng) if tool == "papi_regions" else script(rng, drawn) if runs else "")
    for index in range(STREAMS):
        write(f"stream{index}", stream(rng, drawn) if runs else "")
    return words_of(rng, tool, drawn)
