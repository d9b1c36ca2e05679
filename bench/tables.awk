# Writes one of the large files of bench/tools: awk -v kind=KIND -v table=TABLE -f tables.awk, over
# the table of presets
# No file passes the 1,048,576 bytes that a unit or a preset file may have. The same bytes on every
# machine.

BEGIN {
    limit = 1048576
    # (the letters that no modifier has)
    split("a b d f g h j l m n o p q r s t", umasks, " ")
    counters = "0123456789abcdefghijklmnopqrstuv"
    if (kind == "wide.unit") wide_unit()
    else if (kind == "many.presets") many_presets()
    else if (kind == "alike.unit") alike_unit()
    else if (kind == "alike.script") alike_script()
    else if (kind == "rows.unit") rows_unit()
    else if (kind == "short.rows") for (i = 0; i < limit / 2; i++) print ","
    else exit 1
}

function component(number, width,    i) {
    text = sprintf("COMPONENT,c%02d,p%02d\n", number, number)
    for (i = 1; i <= width; i++) text = text sprintf("COUNTER,%s,48,P\n", substr(counters, i, 1))
    return text
}

# 16 components with 32 counters and 1,024 events each, the events on two neighbouring counters, and
# as many umasks as there is room for, spread evenly over the events.
function wide_unit(    n, i, from, to, room, event) {
    room = limit - 16 * length(component(0, 32)) - 16384 * length("EVENT,E0000,00,0 1,\n")
    room = int(room / length("UMASK,a,01,-,\n"))
    for (n = 0; n < 16384; n++) {
        if (n % 1024 == 0) printf "%s", component(n / 1024, 32)
        printf "EVENT,E%04x,%02x,%s %s,\n", n, n % 256, substr(counters, n % 32 + 1, 1),
            substr(counters, (n + 1) % 32 + 1, 1)
        from = int(n * room / 16384)
        to = int((n + 1) * room / 16384)
        for (i = 1; i <= to - from; i++) printf "UMASK,%s,%02x,-,\n", umasks[i], i
    }
}

# 136 processors with all presets of the table each, over native events of the first component of
# wide.unit.
function many_presets(    cpu, k, symbols, count, line, derived) {
    while ((getline line <table) > 0)
        if (line ~ /^PAPI_/) symbols[++count] = substr(line, 1, index(line, ",") - 1)
    derived[1] = "DERIVED_ADD"
    derived[2] = "DERIVED_SUB"
    derived[3] = "DERIVED_POSTFIX,N0|N1|-|"
    for (cpu = 0; cpu < 136; cpu++) {
        printf "CPU,cpu%d\n", cpu
        for (k = 1; k <= count; k++) {
            printf "PRESET,%s,", symbols[k]
            if (k % 4 == 0) printf "NOT_DERIVED,p00::E%04x:a\n", k
            else printf "%s,p00::E%04x:a,p00::E%04x:b\n", derived[k % 4], k, k + count
        }
    }
}

# The nth name of 64 characters. All agree in the first 56.
function alike(n) {
    return sprintf("THE_NAMES_OF_THE_EVENTS_OF_THIS_UNIT_ALL_BEGIN_LIKE_THIS%08d", n)
}

# 12 components with 1,024 events each.
function alike_unit(    n) {
    for (n = 0; n < 12288; n++) {
        if (n % 1024 == 0) printf "%s", component(n / 1024, 1)
        printf "EVENT,%s,%02x,0,\n", alike(n), n % 256
    }
}

# 80,000 adds of these events, from the last one on.
function alike_script(    i) {
    print "0 create"
    for (i = 0; i < 80000; i++) printf "0 add 0 %s\n", alike(12287 - i % 12288)
}

# As many rows as a unit file can have, and blank lines up to its last byte.
function rows_unit(    n, i, left, text) {
    left = limit
    for (n = 0; n < 16384; n++) {
        text = n % 1024 == 0 ? component(n / 1024, 1) : ""
        text = text sprintf("EVENT,%x,1,0,\n", n % 1024)
        for (i = 1; i <= 16; i++) text = text sprintf("UMASK,%s,1,-,\n", umasks[i])
        if (length(text) > left) break
        printf "%s", text
        left -= length(text)
    }
    while (left-- > 0) print ""
}
