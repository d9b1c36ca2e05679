"""Mistakes, and the hints that the scripts in bin/ give on them. What the program says of each is
that of docs/FORMATS.md."""

from __future__ import annotations

from dataclasses import dataclass, field

from formats.presets import SYMBOLS
from formats.scripts import CALLS

NO_CALL_NEAR = f"none of the {len(CALLS)} that there are is near"

UNIT = (
    "COMPONENT,core,mine\nCOUNTER,C0,32,P\nCOUNTER,C1,32,P\n"
    "EVENT,INSTRUCTIONS,c0,C0 C1,Instructions\nEVENT,LOADS,d0,C1,Loads\n"
)
UMASKS = (
    "UMASK,ALL,03,d,All loads\nUMASK,MISSES,02,n,Loads that miss\nEVENT,STORES,d1,C0,Stores\n"
    "UMASK,HITS,01,-,Hits\nUMASK,MISSES,02,-,Misses\n"
)
PRESETS = (
    "# presets\nCPU,small\nCPU,large\nPRESET,PAPI_TOT_INS,NOT_DERIVED,mine::INSTRUCTIONS\n\n"
    "PRESET,PAPI_L1_LDM,NOT_DERIVED,LOADS:MISS\n"
    "PRESET,PAPI_REF_CYC,DERIVED_PS,INSTRUCTIONS\nEVENT,BOTH,DERIVED_ADD,INSTRUCTIONS,LOADS\n"
)
SCRIPT = (
    "0 create\n0 add 0 INSTRUCTIONS\n0 overflow 0 INSTRUCTIONS 256\n0 start 0\n0 run 9\n0 stop 0\n"
)
REGIONS = "0 begin outer\n0 begin inner\n0 run 1\n0 end inner\n0 end outer\n"
STREAM = "0 c0 00 u 200 400100\n0 c0 00 u 200 400104\n"
MAP = "RANGE,loop,0x400100,4,4\n"
FILES = {"u": UNIT + UMASKS, "p": PRESETS, "s": SCRIPT, "r": REGIONS, "t": STREAM, "m": MAP}
HELP = "{} --help prints the usage"


@dataclass(frozen=True)
class Case:
    """Words over the files above, some of them changed: what the program says, its status, and the
    hints after it. {here} is the folder."""

    title: str
    words: str
    said: str
    status: int
    hints: tuple[str, ...] = ()
    files: dict[str, str] = field(default_factory=dict)
    telling: str = ""  # lines of the output that the hints look at


def bad_words(title: str, words: str, *hints: str) -> Case:
    return Case(
        title, words, "papi: bad words", 2, (*hints, HELP.format("bin/" + words.split()[0]))
    )


def bad_row(title: str, file: str, content: str, row: int, cause: str, *hints: str) -> Case:
    words = {
        "u": "papi_native_avail -U u",
        "p": "papi_avail -U u -P p -C small",
        "m": "papi_profil -U u -M m s t",
    }[file]
    return Case(title, words, f"papi: {file}: row {row}: {cause}", 2, hints, {file: content})


def bad_line(title: str, content: str, line: int, cause: str, *hints: str) -> Case:
    return Case(
        title, "papi_run -U u s t", f"papi: s: line {line}: {cause}", 2, hints, {"s": content}
    )


def bad_region(title: str, content: str, line: int, cause: str, *hints: str) -> Case:
    return Case(
        title, "papi_regions -U u --events LOADS r t", f"papi: r: line {line}: {cause}", 2, hints,
        {"r": content},
    )


def bad_stream(title: str, content: str, line: int, cause: str, *hints: str) -> Case:
    return Case(
        title, "papi_run -U u s t", f"papi: stream 0: line {line}: {cause}", 2, hints,
        {"t": content},
    )


def answer(title: str, words: str, status: int, *hints: str, **files: str) -> Case:
    return Case(title, words, "", status, hints, files)


def refused(title: str, words: str, script: str, replies: str, *hints: str, **files: str) -> Case:
    return Case(title, words, "", 0, hints, {"s": script, **files}, replies)


WORDS = (
    bad_words(
        "an unknown option", "papi_run -U u --worker 4 s t",
        'papi_run has no option "--worker" (near: --workers)',
    ),
    bad_words(
        "no unit", "papi_run s t",
        "-U UNIT is missing: the unit file: components, counters, events and umasks",
    ),
    bad_words(
        "-P without -C", "papi_run -U u -P p s t", "-C CPU is missing: -P PRESETS goes with it"
    ),
    bad_words(
        "-C without -P", "papi_run -U u -C small s t", "-P PRESETS is missing: -C CPU goes with it"
    ),
    bad_words(
        "no -C where it is needed", "papi_avail -U u -P p",
        "-C CPU is missing: the processor whose presets and user events are read",
    ),
    bad_words(
        "no map", "papi_profil -U u s t",
        (
            "-M MAP is missing: the map file: ranges of program counters, each cut into buckets of "
            "one width"
        ),
    ),
    bad_words("no script", "papi_run -U u", "SCRIPT is missing: the calls, one a line"),
    bad_words(
        "a number out of range", "papi_run -U u --workers 65 s t",
        '--workers "65": a number from 1 to 64 is wanted',
    ),
    bad_words(
        "no number", "papi_profil -U u -M m --thread one s t",
        '--thread "one": a number from 0 to 63 is wanted',
    ),
    bad_words("an option without its value", "papi_run s t -U", "-U has no UNIT"),
    bad_words(
        "a value that looks like an option", "papi_native_avail -U u -i -X",
        "-i has no STR: a value that begins with - is attached, -i-X",
    ),
    bad_words("an option twice", "papi_run -U u -U u s", "-U stands twice"),
    bad_words(
        "an option twice, whose value is no other word", "papi_avail -U u -P p -C small -U u",
        "-U stands twice",
    ),
    bad_words(
        "a number with a sign and zeros, which is one", "papi_run -U u --workers +0000000004",
        "SCRIPT is missing: the calls, one a line",
    ),
    bad_words(
        "a word too many", "papi_avail -U u -P p -C small PAPI_TOT_INS",
        '"PAPI_TOT_INS" is one word too many',
    ),
    bad_words(
        "a kind of events in lower case", "papi_event_chooser -U u native LOADS",
        '"native" stands where NATIVE or PRESET is wanted',
    ),
    bad_words(
        "a soak that is too large", "papi_soak 1001",
        'SIZE "1001": a number from 1 to 1000 is wanted',
    ),
    bad_words(
        "a processor's name with a comma", "papi_avail -U u -P p -C a,b",
        (
            '-C "a,b": a processor\'s name has 1 to 64 printable characters, no comma, and no '
            'space at its ends'
        ),
    ),
    bad_words(
        "an empty number", "papi_profil -U u -M m --set= s t", '--set "": a number is wanted'
    ),
    bad_words(
        "a set that no thread has", "papi_profil -U u -M m --set 1000 s t",
        '--set "1000": the number is too large',
    ),
    bad_words(
        "two commas", "papi_regions -U u --events LOADS,,STORES r t",
        "--events: names with one comma between two, and no spaces",
    ),
    Case(
        "a tool that is not there", "papi_rum -U u s t", "papi: bad words", 2,
        ('there is no tool "papi_rum" (near: papi_run)', "papi --help lists the tools"),
    ),
)

MISSING_FILES = (
    Case(
        "a missing file", "papi_run -U unit s t", "papi: no such file: unit", 2,
        ('{here} has no file "unit" (there are: m, p, r, s, t, u)',),
    ),
    Case("a name that is near", "papi_run -U u s stream.1", "papi: no such file: stream.1", 2,
         ('{here} has no file "stream.1" (near: stream.0)',), {"stream.0": STREAM}),
    Case(
        "a missing folder", "papi_run -U units/u s t", "papi: no such file: units/u", 2,
        ('there is no folder "units" in {here}',),
    ),
)

ROWS = (
    bad_row(
        "a width of 64", "u", "# mine\n" + UNIT.replace("C0,32", "C0,64"), 2, "width out of range",
        "u:3: COUNTER,C0,64,P", 'the width is "64", and 16 to 48 is wanted',
    ),
    bad_row(
        "a select code with 0x", "u", UNIT.replace(",c0,", ",0xc0,"), 4, "bad row",
        "u:4: EVENT,INSTRUCTIONS,0xc0,C0 C1,Instructions",
        'the select code is "0xc0", and one or two hexadecimal digits without 0x is wanted',
    ),
    bad_row(
        "a comma in a description", "u", UNIT.replace(",Loads", ",Loads, all"), 5, "bad row",
        "u:5: EVENT,LOADS,d0,C1,Loads, all",
        (
            "the row has 6 fields, and 5 are wanted: EVENT,name,select code,counters,description; "
            "a description has no comma"
        ),
    ),
    bad_row(
        "a kind in lower case", "u", UNIT.replace("COUNTER,C1", "counter,C1"), 3, "bad row",
        "u:3: counter,C1,32,P",
        (
            '"counter" stands where COMPONENT, COUNTER, EVENT, UMASK, UMASK_COUNTERS, '
            'UMASK_MODIFIERS is wanted (in capitals)'
        ),
    ),
    bad_row(
        "a name with a point", "u", UNIT.replace("LOADS", "LOADS.ALL"), 5, "bad row",
        "u:5: EVENT,LOADS.ALL,d0,C1,Loads",
        'the name is "LOADS.ALL", and 1 to 64 letters, digits, _ and - is wanted',
    ),
    bad_row(
        "a width in words", "u", UNIT.replace("C0,32", "C0,wide"), 2, "bad row",
        "u:2: COUNTER,C0,wide,P", 'the width is "wide", and a number from 16 to 48 is wanted',
    ),
    bad_row(
        "a umask above all events", "u", "COMPONENT,core,mine\nUMASK,ALL,03,d,All\n", 2, "bad row",
        "u:2: UMASK,ALL,03,d,All", "no EVENT row of its component stands above this UMASK row",
    ),
    bad_row(
        "a counter above all components", "u", "COUNTER,C0,32,P\n", 1, "bad row",
        "u:1: COUNTER,C0,32,P", "no COMPONENT row stands above this COUNTER row",
    ),
    bad_row(
        "two defaults", "u", UNIT + "UMASK,ALL,03,d,All\nUMASK,SOME,01,d,Some\n", 7, "bad row",
        "u:7: UMASK,SOME,01,d,Some", "another umask of its event is the default (d) already",
    ),
    bad_row(
        "a repeated name", "u", UNIT + "EVENT,loads,d0,C0,Loads\n", 6, "repeated name",
        "u:6: EVENT,loads,d0,C0,Loads",
        "line 5 has the name loads already, and case makes no difference",
    ),
    bad_row(
        "a umask with a modifier's name", "u", UNIT + "UMASK,K,01,-,Kernel\n", 6, "repeated name",
        "u:6: UMASK,K,01,-,Kernel", "K is the name of a modifier",
    ),
    bad_row(
        "an unknown counter", "u", UNIT.replace("d0,C1", "d0,C2"), 5, "unknown counter",
        "u:5: EVENT,LOADS,d0,C2,Loads",
        'no row above has the counter "C2" in its component (there are: C0, C1)',
    ),
    bad_row(
        "counters of no umask", "u", UNIT + "UMASK_COUNTERS,C1\n", 6, "bad row",
        "u:6: UMASK_COUNTERS,C1", "no UMASK row of its event stands above this UMASK_COUNTERS row",
    ),
    bad_row(
        "a umask's counter that its event lacks", "u",
        UNIT + "UMASK,ALL,03,d,All\nUMASK_COUNTERS,C0\n", 7, "unknown counter",
        "u:7: UMASK_COUNTERS,C0", 'LOADS does not have the counter "C0" (there is: C1)',
    ),
    bad_row(
        "counters of a umask twice", "u",
        UNIT + "UMASK,ALL,03,d,All\nUMASK_COUNTERS,C1\nUMASK_COUNTERS,C1\n", 8, "bad row",
        "u:8: UMASK_COUNTERS,C1", "the umask ALL has a UMASK_COUNTERS row already",
    ),
    bad_row(
        "a modifier twice", "u", UNIT + "UMASK,ALL,03,d,All\nUMASK_MODIFIERS,ee,1\n", 7, "bad row",
        "u:7: UMASK_MODIFIERS,ee,1", 'the field of modifiers is "ee", and -, e, i or ei is wanted',
    ),
    bad_row(
        "modifiers that are none", "u", UNIT + "UMASK,ALL,03,d,All\nUMASK_MODIFIERS,-,0\n", 7,
        "bad row", "u:7: UMASK_MODIFIERS,-,0", "it fixes no modifier",
    ),
    bad_row(
        "a preset without a processor", "p", "PRESET,PAPI_TOT_INS,NOT_DERIVED,LOADS\n", 1,
        "preset before cpu", "p:1: PRESET,PAPI_TOT_INS,NOT_DERIVED,LOADS",
        "a row CPU,name is wanted above it",
    ),
    bad_row(
        "a type that is not one", "p", PRESETS.replace("DERIVED_ADD", "DERIVED_SUM"), 6,
        "bad field", "p:8: EVENT,BOTH,DERIVED_SUM,INSTRUCTIONS,LOADS",
        'the type is "DERIVED_SUM" (near: DERIVED_SUB, DERIVED_PS)',
    ),
    bad_row(
        "a user event's name", "p", PRESETS.replace("BOTH", "BOTH-OF"), 6, "bad field",
        "p:8: EVENT,BOTH-OF,DERIVED_ADD,INSTRUCTIONS,LOADS",
        'the name is "BOTH-OF"; wanted: 1 to 32 letters, digits and _, and not PAPI_ before them',
    ),
    bad_row(
        "a user event named like a preset", "p", PRESETS.replace("BOTH", "PAPI_BOTH"), 6,
        "bad field", "p:8: EVENT,PAPI_BOTH,DERIVED_ADD,INSTRUCTIONS,LOADS",
        'the name is "PAPI_BOTH"; wanted: 1 to 32 letters, digits and _, and not PAPI_ before them',
    ),
    bad_row(
        "a native event that is not ASCII", "p",
        PRESETS.replace("INSTRUCTIONS,LOADS", "LOADS\u00e9"), 6, "bad field",
        "p:8: EVENT,BOTH,DERIVED_ADD,LOADS\u00e9",
        '"LOADS\u00e9" has a character that is not from a space to ~',
    ),
    bad_row(
        "a counter too many", "u",
        "COMPONENT,core,mine\n" + "".join(f"COUNTER,C{number},32,P\n" for number in range(33)), 34,
        "over a limit", "u:34: COUNTER,C32,32,P", "at most 32 counters of a component are taken",
    ),
    bad_row(
        "nine native events", "p", "CPU,small\nPRESET,PAPI_TOT_INS,DERIVED_ADD,A,A,A,A,A,A,A,A,A\n",
        2, "over a limit", "p:2: PRESET,PAPI_TOT_INS,DERIVED_ADD,A,A,A,A,A,A,A,A,A",
        "it has 9 native events, and at most 8 are taken",
    ),
    bad_row(
        "a formula with too few values", "p", "CPU,small\nEVENT,A,DERIVED_POSTFIX,N0|+|,LOADS\n", 2,
        "broken formula", "p:2: EVENT,A,DERIVED_POSTFIX,N0|+|,LOADS",
        "the + has 1 value before it, and takes two",
    ),
    bad_row(
        "a formula with a value too many", "p", "CPU,small\nEVENT,A,DERIVED_POSTFIX,N0|2|,LOADS\n",
        2, "broken formula", "p:2: EVENT,A,DERIVED_POSTFIX,N0|2|,LOADS",
        "2 values are left at its end, and one is wanted",
    ),
    bad_row(
        "a native event that the row lacks", "p",
        "CPU,small\nEVENT,A,DERIVED_POSTFIX,N0|N1|+|,LOADS\n", 2, "broken formula",
        "p:2: EVENT,A,DERIVED_POSTFIX,N0|N1|+|,LOADS",
        "N1: the row has 1 native event, numbered from N0",
    ),
    bad_row(
        "a start without 0x", "m", "RANGE,loop,400100,4,4\n", 1, "bad row",
        "m:1: RANGE,loop,400100,4,4",
        'START is "400100", and 0x and 1 to 16 hexadecimal digits is wanted',
    ),
    bad_row(
        "a width over its limit", "m", "RANGE,loop,0x0,1048577,4\n", 1, "bad row",
        "m:1: RANGE,loop,0x0,1048577,4",
        "WIDTH is 1048577, and a number from 1 to 1048576 is wanted",
    ),
    bad_row(
        "a range past the last address", "m", "RANGE,loop,0xfffffffffffffff0,4,5\n", 1, "bad row",
        "m:1: RANGE,loop,0xfffffffffffffff0,4,5", "its addresses go past 0xffffffffffffffff",
    ),
    bad_row(
        "ranges that overlap", "m", MAP + "\nRANGE,next,0x40010c,1,4\n", 2, "ranges overlap",
        "m:3: RANGE,next,0x40010c,1,4",
        "next goes from 0x40010c to 0x40010f, and loop (line 1) from 0x400100 to 0x40010f",
    ),
    bad_row(
        "a range's name twice", "m", MAP + "RANGE,loop,0x500000,1,4\n", 2, "repeated name",
        "m:2: RANGE,loop,0x500000,1,4", "line 1 has the name loop already",
    ),
)

LINES = (
    bad_line(
        "no thread", "create\n", 1, "bad thread", "s:1: create",
        '"create" stands where the thread is wanted, 0 to 63: 0 create',
    ),
    bad_line(
        "a call in capitals", "# all\n0 CREATE\n", 2, "unknown call", "s:2: 0 CREATE",
        'there is no call "CREATE" (calls are in lower case)',
    ),
    bad_line(
        "a call that is near", "0 creat\n", 1, "unknown call", "s:1: 0 creat",
        'there is no call "creat" (near: create)',
    ),
    bad_line(
        "a line of spaces", "0 create\n  \n", 2, "bad thread", "s:2:   ",
        "the line has spaces alone; an empty line has none",
    ),
    bad_line(
        "a carriage return at the end of the file", "0 create\n0 destroy 0\r", 2, "bad number",
        r"s:2: 0 destroy 0\r",
        (
            r'"0\r" stands where SET is wanted: a number from 0 to 4294967295, without a sign or '
            r'leading zeros'
        ),
    ),
    bad_line(
        "an argument too few", "0 create\n0 add INSTRUCTIONS\n", 2, "wrong arguments",
        "s:2: 0 add INSTRUCTIONS", "add takes SET EVENT after it: T add SET EVENT",
    ),
    bad_line(
        "a number below 0", "0 run -1\n", 1, "bad number", "s:1: 0 run -1",
        (
            '"-1" stands where N is wanted: a number from 0 to 4294967295, without a sign or '
            'leading zeros'
        ),
    ),
    bad_line(
        "a code without 0x", "0 name 80000032\n", 1, "bad number", "s:1: 0 name 80000032",
        '"80000032" stands where a code is wanted: 0x and 1 to 8 hexadecimal digits',
    ),
    bad_region(
        "another region's end", "0 begin outer\n0 begin inner\n0 end outer\n", 3, "wrong region",
        "r:3: 0 end outer", "the innermost open region of thread 0 is inner",
    ),
    bad_region(
        "a region that is not ended", "0 begin outer\n0 begin inner\n0 end inner\n", 4,
        "region not ended", "missing at the end: 0 end outer",
    ),
    bad_region(
        "a script's call", "0 begin outer\n0 start 0\n", 2, "unknown call", "r:2: 0 start 0",
        'there is no call "start" (there are: begin, read, end, run)',
    ),
    bad_stream(
        "two spaces", STREAM + "0 c0  00 u 1 1\n", 3, "wrong number of fields",
        "t:3: 0 c0  00 u 1 1", "two spaces stand after field 2",
    ),
    bad_stream(
        "a space at the end", "0 c0 00 u 1 1 \n", 1, "wrong number of fields",
        "t:1: 0 c0 00 u 1 1 ", "a space stands after field 6, the last one",
    ),
    bad_stream(
        "tabs", "0\tc0\t00\tu\t1\t1\n", 1, "wrong number of fields", r"t:1: 0\tc0\t00\tu\t1\t1",
        "a tab stands in it; one space stands between two fields",
    ),
    bad_stream(
        "a field too few", "0 c0 00 u 1\n", 1, "wrong number of fields", "t:1: 0 c0 00 u 1",
        "it has 5 fields, and 6 are wanted: COMP SELECT UMASK MODE AMOUNT PC",
    ),
    bad_stream(
        "a stamp without version 2", "0 c0 00 u 1 1 9\n", 1, "wrong number of fields",
        "t:1: 0 c0 00 u 1 1 9",
        (
            "it has 7 fields, and 6 are wanted: COMP SELECT UMASK MODE AMOUNT PC; a stream with "
            "stamps begins with the line: version 2"
        ),
    ),
    bad_stream(
        "an amount of 256", "0 c0 00 u 256 1\n", 1, "bad field", "t:1: 0 c0 00 u 256 1",
        'field 5, the amount, is "256", and a number from 1 to 255 is wanted',
    ),
    bad_stream(
        "a program counter with 0x", "0 c0 00 u 1 0x400\n", 1, "bad field",
        "t:1: 0 c0 00 u 1 0x400",
        (
            'field 6, the program counter, is "0x400", and 1 to 16 hexadecimal digits without 0x '
            'is wanted'
        ),
    ),
    bad_stream(
        "a stamp that is too large", "version 2\n0 c0 00 u 1 1 4294967295\n", 2, "bad field",
        "t:2: 0 c0 00 u 1 1 4294967295",
        'field 7, the stamp, is "4294967295", and a number from 0 to 4294967294 is wanted',
    ),
    bad_stream(
        "a stamp that is no number", "version 2\n0 c0 00 u 1 1 x\n", 2, "bad field",
        "t:2: 0 c0 00 u 1 1 x",
        'field 7, the stamp, is "x", and a number from 0 to 4294967294 is wanted',
    ),
)

ANSWERS = (
    answer(
        "an unknown processor", "papi_avail -U u -P p -C smal", 0,
        'the preset file has no processor "smal" (near: small)',
    ),
    answer(
        "a processor that is near none", "papi_decode -U u -P p -C skylake", 0,
        'the preset file has no processor "skylake" (there are: small, large)',
    ),
    answer("presets that are there", "papi_avail -U u -P p -C small", 0),
    answer(
        "a preset with a native event that the unit lacks",
        "papi_avail -U u -P p -C small -e PAPI_L1_LDM", 0,
        (
            'PAPI_L1_LDM is not available: mine::LOADS has no umask "MISS" (near: MISSES); u, k, '
            'e, i and c=N are modifiers'
        ),
    ),
    answer(
        "a preset that is not computed", "papi_avail -U u -P p -C small -e PAPI_REF_CYC", 0,
        "PAPI_REF_CYC is of type DERIVED_PS, which is not computed",
    ),
    answer(
        "a preset without a row", "papi_avail -U u -P p -C small -e PAPI_TOT_CYC", 0,
        "the preset file has no row of PAPI_TOT_CYC for the processor small",
    ),
    answer(
        "an unknown preset", "papi_avail -U u -P p -C small -e PAPI_TOT_IN", 1,
        'neither a preset nor a user event has the name "PAPI_TOT_IN" (near: PAPI_TOT_INS)',
    ),
    answer(
        "presets of another unit", "papi_avail -U u -P p -C other", 0,
        (
            'the unit has none of the presets of other: PAPI_TOT_INS is not available: the unit '
            'has no pmu "lab" (there is: mine)'
        ),
        p="CPU,other\nPRESET,PAPI_TOT_INS,NOT_DERIVED,lab::X\n",
    ),
    answer(
        "a preset that the program does not know, with a row",
        "papi_avail -U u -P p -C small -e PAPI_FP_INS", 1,
        (
            f"PAPI_FP_INS is none of the {len(SYMBOLS)} presets that the program knows; "
            "tools/preset_rows makes the user event FP_INS of its row in the preset file"
        ),
        p=PRESETS + "PRESET,PAPI_FP_INS,NOT_DERIVED,LOADS\n",
    ),
    answer(
        "rows of presets that the program does not know alone", "papi_avail -U u -P p -C small", 0,
        (
            "the preset file has no row for the processor small that the program knows; of its 2 "
            "rows of other presets tools/preset_rows makes user events"
        ),
        p=(
            "CPU,small\nPRESET,PAPI_FP_INS,NOT_DERIVED,LOADS\n"
            "PRESET,PAPI_VEC_SP,NOT_DERIVED,LOADS\nCPU,large\n"
            "PRESET,PAPI_VEC_DP,NOT_DERIVED,LOADS\n"
        ),
    ),
    answer(
        "no row that the program knows", "papi_avail -U u -P p -C small", 0,
        "the preset file has no row for the processor small that the program knows",
        p="CPU,small\nPRESET,OTHER,NOT_DERIVED,LOADS\n",
    ),
    answer(
        "an unknown event", "papi_native_avail -U u -e LOAD", 1,
        'the unit has no event "LOAD" (near: LOADS)',
    ),
    answer(
        "no name with these letters", "papi_native_avail -U u -i load", 0,
        'no name of an event contains "load", with regard to case (near: LOADS)',
    ),
    answer(
        "all names left out", "papi_native_avail -U u -i LOADS -x mine", 0,
        'each name that -i leaves contains "mine", so -x leaves none',
    ),
    answer(
        "faults of names", "papi_encode -U u STORES LOADS:ALL:MISSES LOADS:c=256", 1,
        "mine::STORES needs a umask (there are: mine::STORES:HITS, mine::STORES:MISSES)",
        "the umasks ALL and MISSES of mine::LOADS cannot be combined",
        "c takes a number from 0 to 255, without leading zeros: c=2 or c=0x10",
    ),
    answer(
        "more faults of names", "papi_encode -U u LOADS:u:u other::LOADS net:::LOADS LOADS:ALL=1",
        1, '"u" stands twice in the name', 'the unit has no pmu "other" (there is: mine)',
        'the unit has no component "net" (there is: core)', "and more names have faults",
    ),
    answer(
        "an unknown event in a choice", "papi_event_chooser -U u NATIVE INSTRUCTION", 1,
        'the unit has no event "INSTRUCTION" (near: INSTRUCTIONS)',
    ),
    answer(
        "a conflict, which says all itself",
        "papi_event_chooser -U u NATIVE LOADS:ALL LOADS:MISSES", 1,
    ),
    answer(
        "a preset without -P", "papi_event_chooser -U u PRESET PAPI_TOT_INS", 1,
        "PAPI_TOT_INS is a preset: -P PRESETS and -C CPU name those of a processor",
        "without -P PRESETS and -C CPU there are no presets to list",
    ),
    answer(
        "no presets to list", "papi_event_chooser -U u PRESET LOADS", 0,
        "without -P PRESETS and -C CPU there are no presets to list",
    ),
    answer(
        "an unknown event of regions", "papi_regions -U u --events LODS r t", 1,
        'the unit has no event "LODS" (near: LOADS)',
    ),
    answer("a run that is as it should be", "papi_run -U u s t", 0),
    answer(
        "a profile without a stream", "papi_profil -U u -M m s", 0,
        (
            "thread 0 has no stream: the first stream belongs to thread 0, the next to thread 1, "
            "and the words name 0 streams"
        ),
    ),
    answer(
        "a profile without an overflow call", "papi_profil -U u -M m s t", 0,
        "the script has no overflow call for set 0 of thread 0",
        s=SCRIPT.replace("0 overflow 0 INSTRUCTIONS 256\n", ""),
    ),
    answer(
        "a profile of another set", "papi_profil -U u -M m --set 1 s t", 0,
        "the script has no overflow call for set 1 of thread 0 (it has some for set 0: --set)",
    ),
    answer(
        "a profile of an index that is not there", "papi_profil -U u -M m --index 1 s t", 0,
        "set 0 of thread 0 has at most 1 event, numbered from 0, and --index is 1",
    ),
    answer(
        "a profile after a threshold that is refused", "papi_profil -U u -M m s t", 0,
        (
            "line 3: overflow 0 INSTRUCTIONS 255 is refused: the threshold is neither 0 nor from "
            "256 to 4,294,967,295, the last value of the component's narrowest register"
        ),
        s=SCRIPT.replace("256", "255"),
    ),
    answer(
        "a profile after one that is refused and one that is not", "papi_profil -U u -M m s t", 0,
        s=SCRIPT.replace("0 overflow", "0 overflow 0 INSTRUCTIONS 5\n0 overflow"),
    ),
    answer("a profile with a total", "papi_profil -U u -M m s t", 0),
)

NO_SET = "No such EventSet available: the set is not there"
INVALID = "Invalid argument"
IS_CODE = (
    "is a code, and a call takes the event's name: papi_encode prints the codes of names, and the "
    "call `name CODE` replies the name of one"
)
REFUSALS = (
    refused(
        "an unknown processor in a script", "papi_run -U u -P p -C Small s t",
        "0 create\n0 add 0 PAPI_TOT_INS\n", "2 0 add PAPI_ENOEVNT",
        'the preset file has no processor "Small" (near: small)',
        (
            "line 2: add 0 PAPI_TOT_INS: Event does not exist: the preset file has no row of "
            "PAPI_TOT_INS for the processor Small"
        ),
    ),
    refused(
        "an unknown event in a script", "papi_run -U u s t",
        "0 create\n0 add 0 INSTRUCTION\n0 add 0 LOADS\n", "2 0 add PAPI_ENOEVNT",
        (
            'line 2: add 0 INSTRUCTION: Event does not exist: the unit has no event "INSTRUCTION" '
            '(near: INSTRUCTIONS)'
        ),
    ),
    refused(
        "a preset that is not known", "papi_run -U u -P p -C small s t",
        "0 create\n0 add 0 PAPI_L3_TCA\n", "2 0 add PAPI_ENOEVNT",
        (
            "line 2: add 0 PAPI_L3_TCA: Event does not exist: PAPI_L3_TCA is none of the "
            f"{len(SYMBOLS)} presets that the program knows (near: PAPI_L3_TCM, PAPI_L2_TCM, "
            "PAPI_L1_TCM)"
        ),
    ),
    refused(
        "a preset that is not known, with a row",
        "papi_run -U u -P p -C small s t",
        "0 create\n0 add 0 PAPI_FP_INS\n",
        "2 0 add PAPI_ENOEVNT",
        "line 2: add 0 PAPI_FP_INS: Event does not exist: PAPI_FP_INS is none of the "
        f"{len(SYMBOLS)} presets that the program knows; tools/preset_rows makes the user event "
        "FP_INS of its row in the preset file",
        p=PRESETS + "PRESET,PAPI_FP_INS,NOT_DERIVED,LOADS\n",
    ),
    refused(
        "a preset that is not known, with a user event", "papi_run -U u -P p -C small s t",
        "0 create\n0 add 0 PAPI_BOTH\n", "2 0 add PAPI_ENOEVNT",
        (
            "line 2: add 0 PAPI_BOTH: Event does not exist: PAPI_BOTH is none of the "
            f"{len(SYMBOLS)} presets that the program knows; the preset file has the user event "
            "BOTH"
        ),
    ),
    refused(
        "umasks that cannot be combined", "papi_run -U u s t",
        "0 create\n0 add 0 LOADS:ALL:MISSES\n", "2 0 add PAPI_ECOMBO",
        (
            "line 2: add 0 LOADS:ALL:MISSES: Bad combination of features: the umasks ALL and "
            "MISSES of mine::LOADS cannot be combined"
        ),
    ),
    refused(
        "a threshold that is too small", "papi_run -U u s t",
        "0 create\n0 add 0 LOADS\n0 overflow 0 LOADS 200\n", "3 0 overflow PAPI_EINVAL",
        (
            f"line 3: overflow 0 LOADS 200: {INVALID}: the threshold is neither 0 nor from 256 to "
            "4,294,967,295, the last value of the component's narrowest register"
        ),
    ),
    refused(
        "a threshold that is too large", "papi_run -U u s t",
        "0 create\n0 add 0 LOADS\n0 overflow 0 LOADS 4294967296\n", "3 0 overflow PAPI_EINVAL",
        (
            f"line 3: overflow 0 LOADS 4294967296: {INVALID}: the threshold is neither 0 nor from "
            "256 to 4,294,967,295, the last value of the component's narrowest register"
        ),
    ),
    refused(
        "a threshold of an event that the set lacks", "papi_run -U u s t",
        "0 create\n0 add 0 LOADS\n0 overflow 0 INSTRUCTIONS 256\n", "3 0 overflow PAPI_EINVAL",
        f"line 3: overflow 0 INSTRUCTIONS 256: {INVALID}: the event is not in the set",
    ),
    refused(
        "a threshold of an event that was removed", "papi_run -U u s t",
        "0 create\n0 add 0 LOADS\n0 remove 0 LOADS\n0 overflow 0 LOADS 256\n",
        "4 0 overflow PAPI_EINVAL",
        f"line 4: overflow 0 LOADS 256: {INVALID}: the event is not in the set",
    ),
    refused(
        "a threshold of a derived event", "papi_run -U u -P p -C large s t",
        "0 create\n0 add 0 BOTH\n0 overflow 0 BOTH 256\n", "3 0 overflow PAPI_EINVAL",
        f"line 3: overflow 0 BOTH 256: {INVALID}: the event is derived",
    ),
    refused(
        "two thresholds on one native event", "papi_run -U u -P p -C large s t",
        (
            "0 create\n0 add 0 PAPI_TOT_INS\n0 add 0 INSTRUCTIONS\n0 overflow 0 PAPI_TOT_INS 256\n"
            "0 overflow 0 INSTRUCTIONS 300\n"
        ),
        "5 0 overflow PAPI_EINVAL",
        (
            f"line 5: overflow 0 INSTRUCTIONS 300: {INVALID}: another event's threshold is on the "
            "same native event"
        ),
    ),
    refused(
        "an event that the set has", "papi_run -U u s t",
        "0 create\n0 add 0 LOADS\n0 add 0 loads\n", "3 0 add PAPI_EINVAL",
        f"line 3: add 0 loads: {INVALID}: the set has it",
    ),
    refused(
        "an event of another component", "papi_run -U u s t",
        "0 create\n0 add 0 LOADS\n0 add 0 TICKS\n", "3 0 add PAPI_EINVAL",
        f"line 3: add 0 TICKS: {INVALID}: the set has events of another component",
        u=UNIT + "COMPONENT,clock,mine2\nCOUNTER,T0,32,P\nEVENT,TICKS,c0,T0,Ticks\n",
    ),
    refused(
        "a code in a name's place", "papi_run -U u s t",
        "0 create\n0 add 0 0x5302d0\n0 add 0 1610612736\n",
        "2 0 add PAPI_ENOEVNT\n3 0 add PAPI_ENOEVNT",
        f'line 2: add 0 0x5302d0: Event does not exist: "0x5302d0" {IS_CODE}',
        f'line 3: add 0 1610612736: Event does not exist: "1610612736" {IS_CODE}',
    ),
    refused(
        "a conflict",
        "papi_run -U u s t",
        "0 create\n0 add 0 LOADS\n0 add 0 LOADS:MISSES\n",
        "3 0 add PAPI_ECNFLCT mine::LOADS:ALL mine::LOADS:MISSES / C1",
        "line 3: add 0 LOADS:MISSES: Event exists, but cannot be counted due to hardware resource "
        "limits: These 2 events are allowed 1 counter, C1, and no others. "
        "So one of them has no place.",
    ),
    refused(
        "states of sets", "papi_run -U u s t",
        "0 create\n0 stop 0\n0 start 0\n0 add 0 LOADS\n0 start 0\n0 domain 0 3\n0 raw 0 5\n",
        "2 0 stop PAPI_ENOTRUN\n3 0 start PAPI_EINVAL\n6 0 domain PAPI_EISRUN\n7 0 raw PAPI_EINVAL",
        "line 2: stop 0: EventSet is currently not running: the set does not run",
        f"line 3: start 0: {INVALID}: no events",
        "line 6: domain 0 3: EventSet is currently counting: the set runs",
        f"line 7: raw 0 5: {INVALID}: the component has 2 counters, from 0 on",
    ),
    refused(
        "a counter on which no event of the set is", "papi_run -U u s t",
        "0 create\n0 add 0 LOADS\n0 start 0\n0 raw 0 0\n", "4 0 raw PAPI_EINVAL",
        f"line 4: raw 0 0: {INVALID}: no native event of the set is on the counter",
    ),
    refused(
        "a set too many", "papi_run -U u s t", "0 create\n" * 65, "65 0 create PAPI_ECOUNT",
        "line 65: create: Too many events or attributes: 64 sets",
    ),
    refused(
        "an event too many",
        "papi_run -U u s t",
        "0 create\n0 multiplex 0 100\n"
        + "".join(f"0 add 0 INSTRUCTIONS:c={least}\n" for least in range(1, 34)),
        "35 0 add PAPI_ECOUNT",
        (
            "line 35: add 0 INSTRUCTIONS:c=33: Too many events or attributes: more than 32 events "
            "or native events"
        ),
    ),
    refused(
        "ten refusals", "papi_run -U u s t", "0 read 5\n" * 10,
        "\n".join(f"{line} 0 read PAPI_ENOEVST" for line in range(1, 11)),
        *(f"line {line}: read 5: {NO_SET}" for line in range(1, 11)),
    ),
    refused(
        "eleven refusals", "papi_run -U u s t", "0 read 5\n" * 11,
        "\n".join(f"{line} 0 read PAPI_ENOEVST" for line in range(1, 12)),
        *(f"line {line}: read 5: {NO_SET}" for line in range(1, 11)), "1 more call is refused",
    ),
    refused(
        "many refusals", "papi_run -U u s t", "0 read 5\n" * 1500,
        "\n".join(f"{line} 0 read PAPI_ENOEVST" for line in range(1, 1501)),
        *(f"line {line}: read 5: {NO_SET}" for line in range(1, 11)),
        "1,490 more calls are refused",
    ),
    Case(
        "a refusal beside a bad line",
        "papi_run -U u s t",
        "papi: stream 0: line 1: bad field",
        2,
        (
            "t:1: 0 c0 00 u 0 1",
            'field 5, the amount, is "0", and a number from 1 to 255 is wanted',
            f"line 2: read 5: {NO_SET}",
        ),
        {"s": "0 run 1\n0 read 5\n", "t": "0 c0 00 u 0 1\n"},
        "1 0 run PAPI_ESYS 0 0\n2 0 read PAPI_ENOEVST",
    ),
    Case(
        "faults of five streams, of which three are shown",
        "papi_run -U u s t t t t t",
        "\n".join(f"papi: stream {thread}: line 1: bad field" for thread in range(5)),
        2,
        ("t:1: 0 c0 00 u 0 1", 'field 5, the amount, is "0", and a number from 1 to 255 is wanted')
        * 3,
        {"s": "".join(f"{thread} run 1\n" for thread in range(5)), "t": "0 c0 00 u 0 1\n"},
        "\n".join(f"{thread + 1} {thread} run PAPI_ESYS 0 0" for thread in range(5)),
    ),
)

PAPIS_NAMES = tuple(
    bad_line(f"PAPI's name {name}", f"0 {name}\n", 1, "unknown call", f"s:1: 0 {name}", hint)
    for name, hint in (
        ("PAPI_create_eventset", "PAPI_create_eventset is create here: T create"),
        ("PAPI_ADD_EVENT", "PAPI_add_event is add here: T add SET EVENT"),
        ("list_events", "PAPI_list_events is events here: T events SET"),
        ("PAPI_hl_region_begin", "PAPI_hl_region_begin is begin in a region script, which "
                                 "papi_regions carries out: T begin NAME"),
        ("PAPI_shutdown", f'there is no call "PAPI_shutdown" ({NO_CALL_NEAR})'),
    )
) + (
    bad_region(
        "a region call of PAPI", "0 PAPI_hl_region_end x\n", 1, "unknown call",
        "r:1: 0 PAPI_hl_region_end x", "PAPI_hl_region_end is end here: T end NAME",
    ),
)

MISLED = (
    bad_words(
        "a flag without a value beside what is missing", "papi_avail -a -U u -C small",
        "-P PRESETS is missing: the preset file, in the form of PAPI's papi_events.csv",
    ),
    bad_words("two flags", "papi_run --notes -U u", "SCRIPT is missing: the calls, one a line"),
    bad_words(
        "a negative number", "papi_run -U u --workers -1 s t",
        '--workers "-1": a number from 1 to 64 is wanted',
    ),
    bad_words(
        "a value after a long option that looks like one", "papi_regions -U u --events -X r t",
        "--events has no LIST: a value that begins with - is attached, --events=-X",
    ),
    bad_words(
        "a word of help at the end", "papi_run -U u s --help",
        "--help prints the usage if it stands first",
    ),
    bad_words(
        "an option by the name of its value", "papi_run --unit u s t",
        'papi_run has no option "--unit" (near: -U UNIT)',
        "-U UNIT is missing: the unit file: components, counters, events and umasks",
    ),
    Case(
        "a unit as map", "papi_profil -U u -M u s t", "papi: u: row 1: bad row", 2,
        ("u:1: COMPONENT,core,mine", '"COMPONENT" stands where RANGE is wanted'),
    ),
    Case(
        "a long word is cut", "papi_run -U u s t", "papi: s: line 1: unknown call", 2,
        (f"s:1: 0 {'x' * 98}..", f'there is no call "{"x" * 100}.." ({NO_CALL_NEAR})'),
        {"s": f"0 {'x' * 101}\n"},
    ),
    Case(
        "eight events are listed",
        "papi_native_avail -U u -e Z",
        "",
        1,
        (f'the unit has no event "Z" (there are: {", ".join(f"E{n}" for n in range(8))})',),
        {
            "u": "COMPONENT,core,mine\nCOUNTER,C0,32,P\n"
            + "".join(f"EVENT,E{n},c{n},C0,An event\n" for n in range(8))
        },
    ),
    Case(
        "nine events are not",
        "papi_native_avail -U u -e Z",
        "",
        1,
        ('the unit has no event "Z" (none of the 9 that there are is near)',),
        {
            "u": "COMPONENT,core,mine\nCOUNTER,C0,32,P\n"
            + "".join(f"EVENT,E{n},c{n},C0,An event\n" for n in range(9))
        },
    ),
    bad_row(
        "lines that end in carriage returns", "u",
        "# one\r\nCOMPONENT,core,mine\rCOUNTER,C0,64,P\r", 2, "width out of range",
        "u:3: COUNTER,C0,64,P", 'the width is "64", and 16 to 48 is wanted',
    ),
)

COUNTING = "0 create\n0 add 0 INSTRUCTIONS\n0 add 0 LOADS\n0 start 0\n0 run 9\n0 stop 0\n"
LESS = PRESETS + "EVENT,LESS,DERIVED_SUB,INSTRUCTIONS,LOADS:MISSES\n"
NO_LINE = "counts 0: no line of the streams has its code"
OF_LINES = (
    "counts lines of a recording, and not what its name says: docs/RECORDING.md has more under "
    "Codes"
)
OWN_CODE = (
    "has a code of the processor itself, and a recording has others: tools/make_unit skl --counted "
    "makes the unit for it"
)
RECORDED = "# loaded at 0x0\n" + STREAM
SKYLAKE = UNIT.replace(",mine", ",skl")
COUNTED = "# counted: with the codes of recordings\n" + SKYLAKE
SILENT = (
    refused(
        "an event without a line", "papi_run -U u s t", COUNTING, "6 0 stop PAPI_OK 400 0",
        f"mine::LOADS:ALL {NO_LINE}, d0 with a bit of 03",
    ),
    refused(
        "a line of another umask", "papi_run -U u s t", COUNTING.replace("LOADS", "loads:misses"),
        "6 0 stop PAPI_OK 400 0", f"mine::LOADS:MISSES {NO_LINE}, d0 with a bit of 02",
        t=STREAM + "0 d0 01 u 7 1\n",
    ),
    refused(
        "a line of the umask", "papi_run -U u s t", COUNTING.replace("run 9", "run 1"),
        "6 0 stop PAPI_OK 200 0", t=STREAM + "0 d0 01 u 7 1\n",
    ),
    refused(
        "a line of another component", "papi_run -U u s t", COUNTING, "6 0 stop PAPI_OK 400 0",
        f"mine::LOADS:ALL {NO_LINE}, d0 with a bit of 03", t=STREAM + "1 d0 01 u 7 1\n",
    ),
    refused(
        "a line of another mode", "papi_run -U u s t", COUNTING.replace("LOADS", "LOADS:ALL:k"),
        "6 0 stop PAPI_OK 400 0", f"mine::LOADS:ALL:k {NO_LINE}, d0 with a bit of 03 in mode k",
        t=STREAM + "0 d0 01 u 7 1\n",
    ),
    refused(
        "an event without umasks", "papi_run -U u s t", COUNTING.replace("0 add 0 LOADS\n", ""),
        "5 0 stop PAPI_OK 0", f"mine::INSTRUCTIONS {NO_LINE}, c0", t="0 d0 01 u 7 1\n",
    ),
    refused(
        "a code in capitals", "papi_run -U u s t",
        COUNTING.replace("0 add 0 LOADS\n", "").replace("run 9", "run 0"), "5 0 stop PAPI_OK 0",
        t="0 C0 00 u 7 1\n",
    ),
    refused(
        "a part of a value", "papi_run -U u -P p -C small s t",
        COUNTING.replace("0 add 0 INSTRUCTIONS\n0 add 0 LOADS", "0 add 0 LESS"),
        "5 0 stop PAPI_OK 400", f"mine::LOADS:MISSES {NO_LINE}, d0 with a bit of 02", p=LESS,
    ),
    refused(
        "a set that did not run", "papi_run -U u s t", "0 create\n0 add 0 LOADS\n0 read 0\n",
        "3 0 read PAPI_OK 0",
    ),
    refused(
        "an event that was taken out",
        "papi_run -U u s t",
        COUNTING.replace(
            "0 start",
            "0 remove 0 loads\n0 add 0 LOADS:MISSES\n0 cleanup 0\n0 add 0 INSTRUCTIONS\n0 start",
        ),
        "10 0 stop PAPI_OK 400",
    ),
    refused("no stream", "papi_run -U u s", COUNTING, "6 0 stop PAPI_OK 0 0"),
    refused(
        "a stream of another thread", "papi_run -U u s t x", COUNTING, "6 0 stop PAPI_OK 400 0",
        x="0 d0 03 k 1 1\n",
    ),
    refused(
        "a refused event beside it", "papi_run -U u s t",
        COUNTING.replace("0 start", "0 add 0 LOADS\n0 start"),
        "4 0 add PAPI_EINVAL\n7 0 stop PAPI_OK 400 0",
        f"line 4: add 0 LOADS: {INVALID}: the set has it",
        f"mine::LOADS:ALL {NO_LINE}, d0 with a bit of 03",
    ),
    refused(
        "a unit to count over, over another recording", "papi_run -U u s t", COUNTING,
        "6 0 stop PAPI_OK 400 0", f"skl::LOADS {NO_LINE}, d0",
        (
            "tools/record --unit UNIT writes lines for the events of UNIT, if tools/make_unit PMU "
            "--counted made it"
        ),
        u=COUNTED, t=RECORDED,
    ),
    refused(
        "the same over another stream", "papi_run -U u s t", COUNTING, "6 0 stop PAPI_OK 400 0",
        f"skl::LOADS {NO_LINE}, d0", u=COUNTED,
    ),
    refused(
        "the same over a recording with umasks", "papi_run -U u s t", COUNTING,
        "6 0 stop PAPI_OK 400 0", f"skl::LOADS {NO_LINE}, d0", u=COUNTED,
        t=RECORDED.replace("c0 00", "c0 01"),
    ),
    refused(
        "a processor's own codes over a recording", "papi_run -U u s t", COUNTING,
        "6 0 stop PAPI_OK 400 7", f"skl::INSTRUCTIONS {OWN_CODE}", f"skl::LOADS {OWN_CODE}",
        u=SKYLAKE, t=RECORDED + "0 d0 01 u 7 1\n",
    ),
    refused(
        "the same over a stream of another maker", "papi_run -U u s t", COUNTING,
        "6 0 stop PAPI_OK 400 7", u=SKYLAKE, t=STREAM + "0 d0 01 u 7 1\n",
    ),
    refused(
        "one with a least amount", "papi_run -U u s t", COUNTING, "6 0 stop PAPI_OK 400 1",
        f"skl::LOADS:MANY {OF_LINES}", u=COUNTED + "UMASK,MANY,81,d,Many\nUMASK_MODIFIERS,-,2\n",
        t=RECORDED + "0 d0 01 u 7 1\n",
    ),
    refused(
        "one with a least amount of its own", "papi_run -U u s t",
        COUNTING.replace("LOADS", "LOADS:c=2"), "6 0 stop PAPI_OK 400 1",
        f"skl::LOADS:ALL:c=2 {OF_LINES}", u=COUNTED + "UMASK,ALL,81,d,All\n",
        t=RECORDED + "0 d0 01 u 7 1\n",
    ),
    refused(
        "one that counts what it says", "papi_run -U u s t", COUNTING, "6 0 stop PAPI_OK 400 7",
        u=COUNTED + "UMASK,ALL,81,d,All\n", t=RECORDED + "0 d0 01 u 7 1\n",
    ),
    refused(
        "a profile of such an event", "papi_profil -U u -M m s t",
        SCRIPT.replace("INSTRUCTIONS", "LOADS"), "total 0",
        f"mine::LOADS:ALL {NO_LINE}, d0 with a bit of 03",
    ),
    refused(
        "a profile beside such an event", "papi_profil -U u -M m s t",
        SCRIPT.replace("0 start", "0 add 0 LOADS\n0 start"), "total 1",
        f"mine::LOADS:ALL {NO_LINE}, d0 with a bit of 03",
    ),
    answer(
        "regions with such an event", "papi_regions -U u --events INSTRUCTIONS,LOADS r t", 0,
        f"mine::LOADS:ALL {NO_LINE}, d0 with a bit of 03",
    ),
    answer(
        "regions with a part of a value", "papi_regions -U u -P p -C small --events LESS r t", 0,
        f"mine::LOADS:MISSES {NO_LINE}, d0 with a bit of 02", p=LESS,
    ),
    answer(
        "regions that count all", "papi_regions -U u --events LOADS r t", 0,
        t=STREAM + "0 d0 01 u 7 1\n",
    ),
)

CASES = WORDS + MISSING_FILES + ROWS + LINES + ANSWERS + REFUSALS + PAPIS_NAMES + MISLED + SILENT
