"""More mistakes for the table of hint_cases: each field of a row and of a line, each fault of a
formula, and words that are split in other ways."""

from __future__ import annotations

from tests.hint_cases import (
    NO_CALL_NEAR, PRESETS, SCRIPT, STREAM, UMASKS, UNIT, Case, answer, bad_line, bad_region,
    bad_row, bad_stream, bad_words, refused,
)

NET = (
    "COMPONENT,net,wire\nCOUNTER,N0,32,P\nCOUNTER,N1,32,F\nEVENT,PACKETS,01,N0 N1,Packets\n"
    "EVENT,FIXED,02,N1,On the fixed one alone\n"
)
CYCLES = PRESETS + "PRESET,PAPI_TOT_CYC,"
AVAIL = "papi_avail -U u -P p -C small"
LONG = "x" * 101
OF_MARK = (
    "{} begins with a byte order mark (the bytes EF BB BF), which this file may not have: save it "
    "as UTF-8 without one"
)

WORDS = (
    bad_words("a word too many after --", "papi_soak -- 1 2", '"2" is one word too many'),
    bad_words(
        "after -- nothing is an option", "papi_soak -- --workers",
        'SIZE "--workers": a number from 1 to 1000 is wanted',
    ),
    bad_words("a flag with a value", "papi_run -U u --notes=1 s t", "--notes takes no value"),
    bad_words("flags in one word", f"{AVAIL} -aa", "-a stands twice"),
    bad_words("a flag and an option in one word", "papi_avail -P p -C small -aU", "-U has no UNIT"),
    bad_words(
        "a value that is an option's name", "papi_avail -P p -C small -U -a", "-U has no UNIT"
    ),
    bad_words(
        "33 events", f"papi_regions -U u --events {','.join(['LOADS'] * 33)} r t",
        "--events: 33 events, and at most 32 are counted",
    ),
    bad_words(
        "no events", "papi_regions -U u --events= r t",
        "--events: names with one comma between two, and no spaces",
    ),
    bad_words(
        "64 workers are taken", "papi_run -U u --workers 64",
        "SCRIPT is missing: the calls, one a line",
    ),
    bad_words(
        "no workers", "papi_run -U u --workers 0 s",
        '--workers "0": a number from 1 to 64 is wanted',
    ),
    bad_words("two words too many", "papi_soak 1 2 3", '"2" is one word too many'),
    bad_words("a long word", f"papi_soak 1 {LONG}", f'"{LONG[:100]}.." is one word too many'),
    bad_words("65 streams", f"papi_run -U u s {' '.join(['t'] * 65)}", '"t" is one word too many'),
    bad_words(
        "no name", "papi_encode -U u",
        "NAME.. is missing: one or more names: [component:::][pmu::]event[:attribute]..",
    ),
)

FIELDS = (
    bad_row(
        "a field too few", "u", UNIT.replace(",Loads", ""), 5, "bad row", "u:5: EVENT,LOADS,d0,C1",
        "the row has 4 fields, and 5 are wanted: EVENT,name,select code,counters,description",
    ),
    bad_row(
        "a pmu with a point", "u", "COMPONENT,core,mi.ne\n", 1, "bad row",
        "u:1: COMPONENT,core,mi.ne",
        'the pmu is "mi.ne", and 1 to 64 letters, digits, _ and - is wanted',
    ),
    bad_row(
        "a kind of counter", "u", UNIT.replace("C1,32,P", "C1,32,X"), 3, "bad row",
        "u:3: COUNTER,C1,32,X", 'the kind is "X", and P (programmable) or F (fixed) is wanted',
    ),
    bad_row(
        "counters with commas", "u", UNIT.replace("C0 C1", "C0;C1"), 4, "bad row",
        "u:4: EVENT,INSTRUCTIONS,c0,C0;C1,Instructions",
        'the list of counters is "C0;C1", and names with spaces between them is wanted',
    ),
    bad_row(
        "a description that is not ASCII", "u", UNIT.replace(",Loads", ",L\u00e4ufe"), 5, "bad row",
        "u:5: EVENT,LOADS,d0,C1,L\u00e4ufe",
        'the description is "L\u00e4ufe"; wanted: at most 200 characters from a space to ~',
    ),
    bad_row(
        "a long description", "u", UNIT.replace(",Loads", f",{'x' * 201}"), 5, "bad row",
        f"u:5: EVENT,LOADS,d0,C1,{'x' * 82}..",
        f'the description is "{"x" * 100}.."; wanted: at most 200 characters from a space to ~',
    ),
    bad_row(
        "flags of a umask", "u", UNIT + "UMASK,ALL,03,dx,All\n", 6, "bad row",
        "u:6: UMASK,ALL,03,dx,All", 'the field of flags is "dx", and -, d, n or dn is wanted',
    ),
    bad_row(
        "bits of a umask", "u", UNIT + "UMASK,ALL,0x3,d,All\n", 6, "bad row",
        "u:6: UMASK,ALL,0x3,d,All",
        'the field of bits is "0x3", and one or two hexadecimal digits without 0x is wanted',
    ),
    bad_row(
        "a least amount of 256", "u", UNIT + "UMASK,ALL,03,d,All\nUMASK_MODIFIERS,e,256\n", 7,
        "bad row", "u:7: UMASK_MODIFIERS,e,256",
        'the least amount is "256", and a number from 0 to 255 is wanted',
    ),
    bad_row(
        "modifiers of a umask twice", "u",
        UNIT + "UMASK,ALL,03,d,All\nUMASK_MODIFIERS,e,1\nUMASK_MODIFIERS,i,0\n", 8, "bad row",
        "u:8: UMASK_MODIFIERS,i,0", "the umask ALL has a UMASK_MODIFIERS row already",
    ),
    bad_row(
        "modifiers of an event that has no umask", "u",
        UNIT + "UMASK,ALL,03,d,All\nEVENT,MORE,d2,C0,More\nUMASK_MODIFIERS,e,1\n", 8, "bad row",
        "u:8: UMASK_MODIFIERS,e,1",
        "no UMASK row of its event stands above this UMASK_MODIFIERS row",
    ),
    bad_row(
        "an event of the component before", "u", UNIT + "COMPONENT,net,wire\nUMASK,ALL,03,d,All\n",
        7, "bad row", "u:7: UMASK,ALL,03,d,All",
        "no EVENT row of its component stands above this UMASK row",
    ),
    bad_row(
        "a counter of the component before", "u",
        UNIT + "COMPONENT,net,wire\nCOUNTER,N0,32,P\nEVENT,MORE,d2,C0,More\n", 8, "unknown counter",
        "u:8: EVENT,MORE,d2,C0,More",
        'no row above has the counter "C0" in its component (there is: N0)',
    ),
    bad_row(
        "a component's name twice", "u", UNIT + "COMPONENT,CORE,wire\n", 6, "repeated name",
        "u:6: COMPONENT,CORE,wire",
        "line 1 has the name CORE already, and case makes no difference",
    ),
    bad_row(
        "a pmu twice", "u", UNIT + "# a comment\n ,blank\nCOMPONENT,net,Mine\n", 7, "repeated name",
        "u:8: COMPONENT,net,Mine", "line 1 has the name Mine already, and case makes no difference",
    ),
    bad_row(
        "a counter's name twice", "u", UNIT.replace("COUNTER,C1", "COUNTER,c0,32,P\nCOUNTER,C0"), 4,
        "repeated name", "u:4: COUNTER,C0,32,P", "line 2 has the name C0 already",
    ),
    bad_row(
        "a width of 15", "u", UNIT.replace("C0,32", "C0,15"), 2, "width out of range",
        "u:2: COUNTER,C0,15,P", 'the width is "15", and 16 to 48 is wanted',
    ),
    bad_row(
        "a width with a zero", "u", UNIT.replace("C0,32", "C0,032"), 2, "bad row",
        "u:2: COUNTER,C0,032,P", 'the width is "032", and a number from 16 to 48 is wanted',
    ),
    bad_row(
        "17 components", "u", "".join(f"COMPONENT,c{number},p{number}\n" for number in range(17)),
        17, "over a limit", "u:17: COMPONENT,c16,p16", "at most 16 components are taken",
    ),
    bad_row(
        "17 umasks", "u",
        UNIT + "".join(f"UMASK,M{number},{number:02x},-,One\n" for number in range(17)), 22,
        "over a limit", "u:22: UMASK,M16,10,-,One", "at most 16 umasks of an event are taken",
    ),
    bad_row(
        "a type in lower case", "p", PRESETS.replace("DERIVED_ADD", "derived_add"), 6, "bad field",
        "p:8: EVENT,BOTH,derived_add,INSTRUCTIONS,LOADS",
        'the type is "derived_add" (near: DERIVED_ADD)',
    ),
    bad_row(
        "a name of 33 letters", "p", PRESETS.replace("BOTH", "B" * 33), 6, "bad field",
        f"p:8: EVENT,{'B' * 33},DERIVED_ADD,INSTRUCTIONS,LOADS",
        (
            f'the name is "{"B" * 33}"; wanted: 1 to 32 letters, digits and _, and not PAPI_ '
            'before them'
        ),
    ),
    bad_row(
        "a token that is none", "p", "CPU,small\nEVENT,A,DERIVED_POSTFIX,N0|%|,LOADS\n", 2,
        "broken formula", "p:2: EVENT,A,DERIVED_POSTFIX,N0|%|,LOADS",
        '"%" is no token; wanted: N0, N1 .., a number, + - * or /, each ended by |',
    ),
    bad_row(
        "each sign takes two values", "p",
        "CPU,small\nEVENT,A,DERIVED_POSTFIX,N0|2|+|3|-|4|*|5|/|*|,LOADS\n", 2, "broken formula",
        "p:2: EVENT,A,DERIVED_POSTFIX,N0|2|+|3|-|4|*|5|/|*|,LOADS",
        "the * has 1 value before it, and takes two",
    ),
    bad_row(
        "two values too many", "p", "CPU,small\nEVENT,A,DERIVED_POSTFIX,N0|2|3|4|+|,LOADS\n", 2,
        "broken formula", "p:2: EVENT,A,DERIVED_POSTFIX,N0|2|3|4|+|,LOADS",
        "3 values are left at its end, and one is wanted",
    ),
    bad_row(
        "a sign without values", "p", "CPU,small\nEVENT,A,DERIVED_POSTFIX,*|,LOADS\n", 2,
        "broken formula", "p:2: EVENT,A,DERIVED_POSTFIX,*|,LOADS",
        "the * has 0 values before it, and takes two",
    ),
    bad_row(
        "a native event of two", "p",
        "CPU,small\nEVENT,A,DERIVED_POSTFIX,N0|N2|-|,LOADS,STORES:HITS\n", 2, "broken formula",
        "p:2: EVENT,A,DERIVED_POSTFIX,N0|N2|-|,LOADS,STORES:HITS",
        "N2: the row has 2 native events, numbered from N0",
    ),
    bad_row(
        "buckets over their limit", "m", "RANGE,loop,0x0,1,65537\n", 1, "bad row",
        "m:1: RANGE,loop,0x0,1,65537", "BUCKETS is 65537, and a number from 1 to 65536 is wanted",
    ),
    bad_row(
        "a field of a range too few", "m", "RANGE,loop,0x0,1\n", 1, "bad row",
        "m:1: RANGE,loop,0x0,1",
        "the row has 4 fields, and 5 are wanted: RANGE,name,START,WIDTH,BUCKETS",
    ),
    bad_row(
        "a range of no width", "m", "RANGE,loop,0x0,0,1\n", 1, "bad row", "m:1: RANGE,loop,0x0,0,1",
        'WIDTH is "0", and a number from 1 to 1048576 is wanted',
    ),
    bad_row(
        "buckets in words", "m", "RANGE,loop,0x0,1,four\n", 1, "bad row",
        "m:1: RANGE,loop,0x0,1,four", 'BUCKETS is "four", and a number from 1 to 65536 is wanted',
    ),
    bad_row(
        "a range that ends behind another one's start", "m",
        "RANGE,one,0x10,4,1\n# two\nRANGE,two,0x0,1,17\n", 2, "ranges overlap",
        "m:3: RANGE,two,0x0,1,17", "two goes from 0x0 to 0x10, and one (line 1) from 0x10 to 0x13",
    ),
)

LINES = (
    bad_line(
        "thread 64", "64 create\n", 1, "bad thread", "s:1: 64 create",
        '"64" stands where the thread is wanted, 0 to 63: 0 register',
    ),
    bad_line(
        "a stream in the script's place", STREAM, 1, "unknown call",
        f"s:1: {STREAM.splitlines()[0]}",
        "this is a line of a stream: the script stands before the streams",
    ),
    bad_line("a byte order mark", "\ufeff0 create\n", 1, "bad thread", OF_MARK.format("s")),
    bad_stream(
        "a script in a stream's place", SCRIPT, 1, "wrong number of fields", "t:1: 0 create",
        "this is a call of a script, which stands before the streams",
    ),
    bad_stream(
        "a byte order mark in a stream", "\ufeff" + STREAM, 1, "bad field", OF_MARK.format("t")
    ),
    bad_line(
        "a thread alone", "0\n", 1, "unknown call", "s:1: 0",
        f"no call stands after the thread ({NO_CALL_NEAR})",
    ),
    bad_line(
        "an argument too many", "0 create 1\n", 1, "wrong arguments", "s:1: 0 create 1",
        "create takes nothing after it: T create",
    ),
    bad_line(
        "an event's name with a control character", "0 create\n0 add 0 A\x01\n", 2,
        "wrong arguments", r"s:2: 0 add 0 A\x01",
        r'"A\x01": the name of an event has characters from ! to ~',
    ),
    bad_line(
        "a threshold of 65 bits", "0 create\n0 overflow 0 LOADS 18446744073709551616\n", 2,
        "bad number", "s:2: 0 overflow 0 LOADS 18446744073709551616",
        (
            '"18446744073709551616" stands where THRESHOLD is wanted: a number from 0 to '
            '18446744073709551615, without a sign or leading zeros'
        ),
    ),
    bad_line(
        "a number of 33 bits", "0 run 4294967296\n", 1, "bad number", "s:1: 0 run 4294967296",
        (
            '"4294967296" stands where N is wanted: a number from 0 to 4294967295, without a sign '
            'or leading zeros'
        ),
    ),
    bad_line(
        "a number with a zero before it", "0 destroy 00\n", 1, "bad number", "s:1: 0 destroy 00",
        (
            '"00" stands where SET is wanted: a number from 0 to 4294967295, without a sign or '
            'leading zeros'
        ),
    ),
    bad_line(
        "the second number", "0 create\n0 domain 0 x\n", 2, "bad number", "s:2: 0 domain 0 x",
        (
            '"x" stands where BITS is wanted: a number from 0 to 4294967295, without a sign or '
            'leading zeros'
        ),
    ),
    bad_line(
        "a code of nine digits", "0 name 0x800000321\n", 1, "bad number", "s:1: 0 name 0x800000321",
        '"0x800000321" stands where a code is wanted: 0x and 1 to 8 hexadecimal digits',
    ),
    bad_region(
        "a region's name with a point", "0 begin a.b\n", 1, "wrong arguments", "r:1: 0 begin a.b",
        '"a.b": the name of a region has 1 to 64 letters, digits, _ and -',
    ),
    bad_region(
        "an end without a region", "0 begin outer\n1 end outer\n", 2, "wrong region",
        "r:2: 1 end outer", "no region of thread 1 is open there",
    ),
    bad_region(
        "regions of two threads that are not ended", "1 begin b\n0 begin a\n0 begin c\n# the end\n",
        5, "region not ended", "missing at the end: 0 end c, 0 end a, 1 end b",
    ),
    bad_region(
        "a read of another region", "0 begin a\n0 begin b\n0 end b\n0 read b\n0 end a\n", 4,
        "wrong region", "r:4: 0 read b", "the innermost open region of thread 0 is a",
    ),
    bad_region(
        "a script's call by PAPI's name", "0 PAPI_start\n", 1, "unknown call", "r:1: 0 PAPI_start",
        "PAPI_start is start in a script, which papi_run carries out: T start SET",
    ),
    bad_stream(
        "a line of spaces", STREAM + "  \n", 3, "wrong number of fields", "t:3:   ",
        "the line has spaces alone; an empty line has none",
    ),
    bad_stream(
        "a space at the beginning", " 0 c0 00 u 1 1\n", 1, "wrong number of fields",
        "t:1:  0 c0 00 u 1 1", "a space stands before field 1",
    ),
    bad_stream(
        "commas", "0,c0,00,u,1,1\n", 1, "wrong number of fields", "t:1: 0,c0,00,u,1,1",
        "a comma stands in it; one space stands between two fields",
    ),
    bad_stream(
        "a long line", "#" + "x" * 128 + "\n", 1, "line too long", f"t:1: #{'x' * 99}..",
        "at most 128 bytes are a line, comments too",
    ),
    bad_stream(
        "a field too few with stamps", "version 2\n0 c0 00 u 1 1\n", 2, "wrong number of fields",
        "t:2: 0 c0 00 u 1 1",
        "it has 6 fields, and 7 are wanted: COMP SELECT UMASK MODE AMOUNT PC STAMP",
    ),
    bad_stream(
        "two fields too many", "0 c0 00 u 1 1 2 3\n", 1, "wrong number of fields",
        "t:1: 0 c0 00 u 1 1 2 3",
        "it has 8 fields, and 6 are wanted: COMP SELECT UMASK MODE AMOUNT PC",
    ),
    bad_stream(
        "component 16", "16 c0 00 u 1 1\n", 1, "bad field", "t:1: 16 c0 00 u 1 1",
        'field 1, the component, is "16", and a number from 0 to 15 is wanted',
    ),
    bad_stream(
        "a select code of one digit", "0 c 00 u 1 1\n", 1, "bad field", "t:1: 0 c 00 u 1 1",
        'field 2, the select code, is "c", and two hexadecimal digits is wanted',
    ),
    bad_stream(
        "a umask of three digits", "0 c0 000 u 1 1\n", 1, "bad field", "t:1: 0 c0 000 u 1 1",
        'field 3, the umask, is "000", and two hexadecimal digits is wanted',
    ),
    bad_stream(
        "a mode", "0 c0 00 U 1 1\n", 1, "bad field", "t:1: 0 c0 00 U 1 1",
        'field 4, the mode, is "U", and u or k is wanted',
    ),
    bad_stream(
        "a stamp that does not rise", "version 2\n0 c0 00 u 1 1 9\n0 c0 00 u 1 1 9\n", 3,
        "stamp does not rise", "t:3: 0 c0 00 u 1 1 9",
    ),
)

ANSWERS = (
    answer(
        "a formula with a time", f"{AVAIL} -e PAPI_TOT_CYC", 0,
        "the formula of PAPI_TOT_CYC has a #, a time, and is not computed",
        p=CYCLES + "DERIVED_POSTFIX,N0|#|/|,LOADS\n",
    ),
    answer(
        "a formula with its signs between", f"{AVAIL} -e PAPI_TOT_CYC", 0,
        p=CYCLES + "DERIVED_INFIX,N0+N1,LOADS,INSTRUCTIONS\n",
    ),
    answer(
        "a preset without a native event", f"{AVAIL} -e PAPI_TOT_CYC", 0,
        "PAPI_TOT_CYC has no native events", p=CYCLES + "NOT_DERIVED\n",
    ),
    answer(
        "two native events of one", f"{AVAIL} -e PAPI_TOT_CYC", 0,
        "PAPI_TOT_CYC is NOT_DERIVED and has 2 native events, where one is wanted",
        p=CYCLES + "NOT_DERIVED,LOADS,LOADS\n",
    ),
    answer(
        "native events of two components", f"{AVAIL} -e PAPI_TOT_CYC", 0,
        "PAPI_TOT_CYC has native events of several components: core, net",
        p=CYCLES + "DERIVED_ADD,wire::PACKETS,LOADS\n", u=UNIT + UMASKS + NET,
    ),
    *(
        answer(
            f"a preset with {kind}", f"{AVAIL} -e PAPI_TOT_CYC", 0,
            p=CYCLES + f"NOT_DERIVED,LOADS,{kind},'a note'\n",
        )
        for kind in ("NOTE", "SDESC", "LDESC", "note")
    ),
    answer(
        "a preset with an empty field", f"{AVAIL} -e PAPI_TOT_CYC", 0,
        p=CYCLES + "NOT_DERIVED,LOADS,,NOPE\n",
    ),
    answer("an available user event", f"{AVAIL} -e BOTH", 0),
    answer(
        "a user event in other letters", f"{AVAIL} -e both", 1,
        'neither a preset nor a user event has the name "both" (near: BOTH)',
    ),
    answer(
        "a preset of another processor", "papi_avail -U u -P p -C large -e PAPI_L1_LDM", 0,
        "the preset file has no row of PAPI_L1_LDM for the processor large",
        p=(
            "CPU,small\nPRESET,PAPI_L1_LDM,NOT_DERIVED,LOADS\nCPU,large\n"
            "PRESET,PAPI_TOT_INS,NOT_DERIVED,LOADS\n"
        ),
    ),
    answer(
        "a preset of a choice that has no row",
        f"papi_event_chooser{AVAIL.removeprefix('papi_avail')} PRESET PAPI_TOT_CYC", 1,
        "the preset file has no row of PAPI_TOT_CYC for the processor small",
    ),
    answer(
        "more faults of a choice",
        "papi_event_chooser -U u NATIVE LOADS:u:u other::LOADS net:::LOADS LOADS:ALL=1", 1,
        '"u" stands twice in the name', 'the unit has no pmu "other" (there is: mine)',
        'the unit has no component "net" (there is: core)', "and more names have faults",
    ),
    answer(
        "an unknown component of a name", "papi_native_avail -U u -e nets::mine::LOADS", 1,
        'the unit has no pmu "nets" (there is: mine)',
    ),
    answer("a unit that is no file", "papi_native_avail -U /dev/null -e LOADS", 1),
    answer(
        "values after =", "papi_native_avail -U=u -e=LOAD", 1,
        'the unit has no event "LOAD" (near: LOADS)',
    ),
    answer("a name in full", "papi_native_avail -U u -e MINE::loads", 0),
    answer(
        "faults of attributes", "papi_encode -U u LOADS:c=256 LOADS:u=2 LOADS:ALL:all", 1,
        "c takes a number from 0 to 255, without leading zeros: c=2 or c=0x10",
        "u takes no value, or one of 0 1 n y f t", '"all" stands twice in the name',
    ),
    answer("a value of a umask", "papi_encode -U u LOADS:ALL=1", 1, "the umask ALL takes no value"),
    answer(
        "values of modifiers that are right", "papi_encode -U u LOADS:c=255:u=1 LOADS:c=0xff:K=y", 0
    ),
    answer(
        "an event of the other component", "papi_native_avail -U u -e wire::LOADS", 1,
        'the unit has no event "wire::LOADS" (there are: PACKETS, FIXED)', u=UNIT + UMASKS + NET,
    ),
    answer(
        "a profile of another thread", "papi_profil -U u -M m --thread 1 s t", 0,
        (
            "thread 1 has no stream: the first stream belongs to thread 0, the next to thread 1, "
            "and the words name 1 stream"
        ),
    ),
    answer(
        "a threshold that is taken away", "papi_profil -U u -M m s t", 0,
        "the script has no overflow call for set 0 of thread 0 (it has some for set 0: --set)",
        s=SCRIPT.replace("INSTRUCTIONS 256", "INSTRUCTIONS 0"),
    ),
    answer(
        "a profile without a run", "papi_profil -U u -M m s t", 0,
        "the script has no run of thread 0", s=SCRIPT.replace("0 run 9\n", ""),
    ),
    answer(
        "a profile of an event that is not there", "papi_profil -U u -M m s t", 0,
        'line 2: the unit has no event "INSTRUCTION" (near: INSTRUCTIONS)',
        s=SCRIPT.replace("add 0 INSTRUCTIONS", "add 0 INSTRUCTION"),
    ),
)

NO_COUNTER = "Event exists, but cannot be counted due to hardware resource limits"
REFUSALS = (
    refused(
        "an event that no counter takes", "papi_run -U u s t",
        "0 create\n0 component 0 1\n0 add 0 FIXED:c=2\n", "3 0 add PAPI_ECNFLCT wire::FIXED:c=2 /",
        f"line 3: add 0 FIXED:c=2: {NO_COUNTER}: This event is allowed no counter.",
        u=UNIT + UMASKS + NET,
    ),
    refused(
        "an unknown attribute", "papi_run -U u s t", "0 create\n0 add 0 LOADS:MISS\n",
        "2 0 add PAPI_EATTR",
        (
            'line 2: add 0 LOADS:MISS: Invalid or missing event attributes: mine::LOADS has no '
            'umask "MISS" (near: MISSES); u, k, e, i and c=N are modifiers'
        ),
    ),
    refused(
        "a component that is not there", "papi_run -U u s t", "0 create\n0 component 0 1\n",
        "2 0 component PAPI_ENOCMP",
        "line 2: component 0 1: Component Index isn't set: no such component",
    ),
    refused(
        "an event that is not in the set", "papi_run -U u s t", "0 create\n0 remove 0 LOADS\n",
        "2 0 remove PAPI_EINVAL", "line 2: remove 0 LOADS: Invalid argument: not in the set",
    ),
    refused(
        "a code that is none", "papi_run -U u s t", "0 name 0x40000000\n", "1 0 name PAPI_ENOEVNT",
        (
            "line 1: name 0x40000000: Event does not exist: no preset and no user event has the "
            "code, and no native event that was mentioned so far"
        ),
    ),
)

EDGES: tuple[Case, ...] = WORDS + FIELDS + LINES + ANSWERS + REFUSALS
