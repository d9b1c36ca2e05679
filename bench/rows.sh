# The rows of bench/run, which reads this by '.'. Each function makes the files of its row, and
# measures. `lines` are the lines of a stream.
# shellcheck shell=sh disable=SC2154,SC2034
rows='nothing three branches thresholds alike one turns components stamps returns comments threads'
rows="$rows rounds accum presets regions profil library"

# A script has at most 100,000 calls, of which those of 32 events, a beginning and an end take some.
most_rounds=49990
repeated=99960
region_count=45000
note_count=1000000
reading_count=1000000

# The program by hand of a row over a stream.
counter=count

# What runs a row's command, and how it is timed; a row may set another.
runner=
timer=processor_seconds

# Writes a script of thread 0 to the standard output: these calls, a line each.
calls() {
    printf '0 %s\n' "$@"
}

# The calls that make and start a set of three events, or of the 32 of the unit `many`.
begin_three() {
    calls create 'add 0 INST_RETIRED' 'add 0 CYCLES' 'add 0 BR_INST' 'start 0'
}
begin_many() {
    calls create
    awk 'BEGIN { for (i = 0; i < 16; i++) printf "0 add 0 INST:M%d:u\n0 add 0 INST:M%d:k\n", i, i }'
    calls 'start 0'
}

# A unit of 32 counters and one event with 16 umasks.
many_unit() {
    awk 'BEGIN {
        print "COMPONENT,cpu,many"
        for (i = 0; i < 32; i++) {
            printf "COUNTER,C%d,48,P\n", i
            all = all (i ? " " : "") "C" i
        }
        print "EVENT,INST,c0," all ",Instructions retired"
        for (i = 0; i < 16; i++) printf "UMASK,M%d,%02x,-,\n", i, i % 3 + 1
    }'
}

# Eight presets over the 32 native events of the unit `many`: sums and differences of four.
many_presets() {
    awk 'BEGIN {
        split("PAPI_L1_DCM PAPI_L1_ICM PAPI_L2_DCM PAPI_L2_ICM PAPI_L1_TCM PAPI_L2_TCM " \
            "PAPI_L3_TCM PAPI_TLB_DM", symbols)
        print "CPU,many"
        for (i = 0; i < 8; i++) {
            printf "PRESET,%s,DERIVED_%s", symbols[i + 1], i % 2 ? "SUB" : "ADD"
            for (k = 0; k < 4; k++) printf ",INST:M%d:%s", 2 * i + int(k / 2), k % 2 ? "k" : "u"
            print ""
        }
    }'
}

plain() {
    [ -f plain.stream ] || ./generate "$lines" >plain.stream
}

# What the replies of `run`, `read` and `stop` have after their codes, a line each, as `count`
# prints it.
results() {
    awk '$3 == "run" || $3 == "read" || $3 == "stop" {
        sub(/^[^ ]+ [^ ]+ [^ ]+ PAPI_OK ?/, "")
        print
    }' "$1"
}

# Prints a row of papi_run beside a kind of work of `count`: counted TEXT KIND UNIT SCRIPT STREAM..
counted() {
    text=$1
    kind=$2
    unit=$3
    script=$4
    shift 4
    streams=$*
    by_hand="./$counter $kind $streams"
    command="papi_run -U $unit $script $streams"
    show=results
    measure "$(cat "$@" | grep -vc '^version')"
}

# Prints a row of a script beside `calls`: called TEXT UNIT SCRIPT STREAM [PRESETS]
called() {
    text=$1
    streams=$4
    by_hand="./calls $2 $3 $4 ${5-}"
    command="papi_run -U $2 ${5+-P $5 -C many} $3 $4"
    show='cat'
    measure "$(wc -l <"$3")"
}

# Measures what `by_hand`, `command` and `streams` say, and compares the output of the one with what
# `show` makes of the other's.
measure() {
    measured=$1
    : >by_hand.times
    : >program.times
    : >wc.times
    : >cat.times
    run=0
    while [ "$run" -lt "$runs" ]; do
        measure_once
        run=$((run + 1))
    done
    counts=
    [ "$instructions" = no ] || counts=$(both_instructions)
    print_row
    runner=$program
    timer=processor_seconds
}

# The words of the commands are split at their blanks; nothing in them has another one.
# shellcheck disable=SC2086
measure_once() {
    if [ -n "$by_hand" ]; then
        $timer $by_hand >>by_hand.times || fail "the program by hand failed: $text"
        mv said wanted
    fi
    $timer "$runner" $command >>program.times || fail "the program failed: $text"
    $show said >given
    cmp -s wanted given || {
        diff wanted given | head -n 4 >&2
        fail "the outputs differ: $text"
    }
    [ -n "$streams" ] || return 0
    processor_seconds wc -l $streams >>wc.times
    processor_seconds sh -c 'exec cat "$@" >/dev/null' - $streams >>cat.times
}

# The instructions of a command by callgrind.
count_instructions() {
    valgrind --tool=callgrind --callgrind-out-file=/dev/null "$@" 2>&1 >/dev/null |
        awk '/Collected/ { print $NF }'
}

# Those of the program by hand, or `-` if there is none, and of the program.
# shellcheck disable=SC2086
both_instructions() {
    if [ -n "$by_hand" ]; then count_instructions $by_hand; else echo -; fi
    count_instructions "$runner" $command
}

# A median of a file, or `-` if it is empty.
median_or_none() {
    if [ -s "$1" ]; then median "$1"; else echo -; fi
}

print_row() {
    echo "$(median_or_none by_hand.times) $(median_or_none program.times)" \
        "$(median_or_none wc.times) $(median_or_none cat.times) $counts" | tr '\n' ' ' |
        awk -v text="$text" -v lines="$measured" '
            function speed(t) {
                if (t == "-") return sprintf("%18s", "-")
                return sprintf("%6.3f s %5.1f M/s", t, t > 0 ? lines / t / 1000000 : 0)
            }
            function ratio(a, b) { return a == "-" || b <= 0 ? "-" : sprintf("%.2f", a / b) }
            {
                printf "%-48s %9d  %s  %s  %5s  %7s  %7s", text, lines, speed($1), speed($2),
                    ratio($1, $2), $3, $4
                for (i = 5; i <= NF; i++)
                    printf "  %6s", $i == "-" ? "-" : sprintf("%.1f", $i / lines)
                print ""
            }'
}

row_nothing() {
    plain
    calls "run $lines" >script
    counted 'no set runs' nothing lab.unit script plain.stream
}

row_three() {
    plain
    { begin_three && calls "run $lines" 'stop 0'; } >script
    counted 'three events' three lab.unit script plain.stream
}

row_branches() {
    plain
    calls create 'add 0 BR_INST' 'domain 0 3' 'start 0' "run $lines" 'stop 0' >script
    counted 'one event, nine lines of ten match nothing' branches lab.unit script plain.stream
}

row_thresholds() {
    plain
    calls create 'add 0 INST_RETIRED' 'add 0 CYCLES' 'add 0 BR_INST' \
        'overflow 0 INST_RETIRED 1000' 'overflow 0 CYCLES 1000' \
        'overflow 0 BR_INST 1000' 'start 0' "run $lines" 'stop 0' >script
    counted 'three events, each with a threshold of 1,000' thresholds lab.unit script plain.stream
}

row_alike() {
    plain
    many_unit >many.unit
    { begin_many && calls "run $lines" 'stop 0'; } >script
    counted '32 events of one select code' alike many.unit script plain.stream
}

row_one() {
    plain
    many_unit >many.unit
    calls create 'add 0 INST:M2:u' 'start 0' "run $lines" 'stop 0' >script
    counted 'one event, a component of 32 counters' one many.unit script plain.stream
}

row_turns() {
    plain
    calls create 'multiplex 0 1000' 'add 0 INST_RETIRED' 'add 0 CYCLES' 'add 0 BR_INST' \
        'add 0 BR_MISP' 'add 0 CACHE' \
        'add 0 INST_RETIRED:k' 'start 0' "run $lines" 'stop 0' >script
    counted 'six events multiplexed, slice 1,000' turns lab.unit script plain.stream
}

row_components() {
    ./generate "$lines" 1 components >components.stream
    awk 'BEGIN {
        for (i = 0; i < 16; i++)
            printf "COMPONENT,c%d,p%d\nCOUNTER,C0,48,P\nEVENT,INST,c0,C0,%s\n", i, i,
                "Instructions retired"
    }' >components.unit
    {
        awk 'BEGIN {
            for (i = 0; i < 16; i++) printf "0 create\n0 add %d p%d::INST\n0 start %d\n", i, i, i
        }'
        calls "run $lines"
        awk 'BEGIN { for (i = 0; i < 16; i++) printf "0 stop %d\n", i }'
    } >script
    counted '16 components, a set on each' components components.unit script components.stream
}

# (a line with a stamp is longer, and a stream has at most 64 MiB)
row_stamps() {
    ./generate "$((lines * 2 / 3))" 1 stamps >stamps.stream
    { begin_three && calls "run $lines" 'stop 0'; } >script
    counted 'version 2, three events' three lab.unit script stamps.stream
}

# (a carriage return makes lines longer too)
row_returns() {
    plain
    head -n "$((lines * 15 / 16))" plain.stream | awk '{ printf "%s\r\n", $0 }' >returns.stream
    { begin_three && calls "run $lines" 'stop 0'; } >script
    counted 'carriage returns, three events' three lab.unit script returns.stream
}

row_comments() {
    plain
    head -n "$((lines / 2))" plain.stream |
        awk '{ print "# an occurrence:"; print }' >comments.stream
    { begin_three && calls "run $lines" 'stop 0'; } >script
    counted 'a comment every second line, three events' three lab.unit script comments.stream
}

# Four threads work at once, so that the seconds are those that pass.
row_threads() {
    for thread in 0 1 2 3; do
        ./generate "$lines" "$((thread + 1))" >"thread$thread.stream"
    done
    for thread in 0 1 2 3; do
        { begin_three && calls "run $lines" 'stop 0'; } | sed "s/^0 /$thread /"
    done >script
    timer=seconds
    counted 'four threads on four workers (seconds that pass)' three lab.unit '--workers 4 script' \
        thread0.stream thread1.stream thread2.stream thread3.stream
}

row_rounds() {
    plain
    rounds=$((lines / 32))
    [ "$rounds" -le "$most_rounds" ] || rounds=$most_rounds
    {
        begin_three
        awk -v rounds="$rounds" 'BEGIN { for (i = 0; i < rounds; i++) print "0 run 32\n0 read 0" }'
        calls 'stop 0'
    } >script
    head -n $((rounds * 32)) plain.stream >rounds.stream
    called "$rounds runs of 32 with a read each" lab.unit script rounds.stream
}

# A call that is repeated on the set that a script has started: repeat CALL
repeat() {
    calls 'run 1000'
    awk -v call="$1" -v n="$repeated" 'BEGIN { for (i = 0; i < n; i++) print "0 " call " 0" }'
    calls 'stop 0'
}

row_accum() {
    ./generate 1000 >short.stream
    many_unit >many.unit
    { begin_many && repeat accum; } >script
    called "$repeated accum of 32 native events" many.unit script short.stream
}

row_presets() {
    ./generate 1000 >short.stream
    many_unit >many.unit
    many_presets >many.presets
    {
        calls create
        awk -F, '$1 == "PRESET" { print "0 add 0 " $2 }' many.presets
        calls 'start 0'
        repeat read
    } >script
    called "$repeated read of presets over 32 natives" many.unit script short.stream many.presets
}

# (no run has an occurrence, so that all counts are 0)
row_regions() {
    awk -v n="$region_count" \
        'BEGIN { for (i = 0; i < n; i++) printf "0 begin r%d\n0 end r%d\n", i, i }' >script
    awk -v n="$region_count" 'BEGIN { for (i = 0; i < n; i++) printf "0 r%d 1 0 0 0\n", i }' >wanted
    text="papi_regions, $region_count regions"
    by_hand=
    streams=
    command='papi_regions -U lab.unit --events INST_RETIRED,CYCLES,BR_INST script'
    show='cat'
    measure "$((2 * region_count))"
}

# Each amount is 255 and the threshold 256, so that nearly each occurrence passes it: n of them are
# passed by 256 n / 255, rounded up.
row_profil() {
    count=$(((256 * note_count + 254) / 255))
    awk -v n="$count" 'BEGIN {
        for (i = 0; i < n; i++) printf "0 c0 00 u 255 %x\n", 4194304 + i * 40503 % 65536 * 16
    }' >profil.stream
    echo 'RANGE,code,0x400000,16,65536' >profil.map
    calls create 'add 0 INST_RETIRED' 'overflow 0 INST_RETIRED 256' 'start 0' "run $count" >script
    text="papi_profil, $note_count notes in 65,536 buckets"
    by_hand='./count hits profil.stream'
    streams=profil.stream
    command='papi_profil -U lab.unit -M profil.map script profil.stream'
    show='cat'
    measure "$count"
}

row_library() {
    if ! [ -f "$archive" ]; then
        echo "library for C: left out, since there is no archive $archive"
        return
    fi
    "$here/../c/build" library "$archive"
    "${CC:-cc}" -std=c11 -D_POSIX_C_SOURCE=200809L -O2 -I"$here/../include" -o readings \
        "$here/readings.c" library/libkistalub.a -lpthread
    "${CC:-cc}" -std=c11 -D_POSIX_C_SOURCE=200809L -O2 -I"$here/../include" -o readings_by_hand \
        "$here/readings.c" "$here/by_hand.c"
    ./generate "$((reading_count + 1))" >readings.stream
    text="library for C, $reading_count PAPI_read, step 1"
    by_hand='./readings_by_hand lab.unit readings.stream'
    streams=readings.stream
    runner=./readings
    command='lab.unit readings.stream'
    show='cat'
    measure "$reading_count"
}
