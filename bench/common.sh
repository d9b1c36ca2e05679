# What the benchmarks share. Each reads it by '.', with its own folder in `here` and its name in
# `name`.
# shellcheck shell=sh disable=SC2154

# Ends with 1, and says why.
fail() {
    echo "$name: $*" >&2
    exit 1
}

# Sets `program` to the one that is named, or else to that of crates/papi, which is built first.
find_program() {
    if [ $# -gt 0 ]; then
        [ -x "$1" ] || fail "no program: $1"
        program=$(CDPATH='' cd -- "$(dirname -- "$1")" && pwd)/$(basename -- "$1")
    else
        program=$here/../crates/papi/out/papi
        # (the program itself ends with 2, since it has no words)
        (cd "$here/../crates/papi" && rt run >&2) || [ -x "$program" ]
    fi
    [ -x "$program" ] || fail "no program: $program"
}

# Goes to a new folder, which is removed at the end.
enter_folder() {
    # shellcheck source=examples/folder.sh
    . "$here/../examples/folder.sh"
    cd "$folder" || exit 1
}

# The seconds of one run of a command, whose standard output goes to the file `said`. Gives the
# command's status.
seconds() {
    begun=$(date +%s.%N)
    ended_with=0
    "$@" >said || ended_with=$?
    ended=$(date +%s.%N)
    echo "$begun $ended" | awk '{ printf "%.3f\n", $2 - $1 }'
    return "$ended_with"
}

# The processor's seconds of one run of a command, in it and in the system for it, whose standard
# output goes to the file `said`. Gives the command's status. Needs bash, which counts thousandths.
# What else runs on the machine takes little part in them.
processor_seconds() {
    ended_with=0
    bash -c 'TIMEFORMAT="%U %S"; { time "$@" >said 2>said.errors; } 2>used' - "$@" || ended_with=$?
    awk '{ printf "%.3f\n", $1 + $2 }' used
    return "$ended_with"
}

# The most memory that was resident in one run of a command, in MB, or `-` where there is no GNU
# time.
peak() {
    if [ -x /usr/bin/time ]; then
        /usr/bin/time -q -f %M -o peak.kb "$@" >said 2>/dev/null || :
        tail -n 1 peak.kb | awk '{ printf "%.1f\n", $1 / 1000 }'
    else
        echo -
    fi
}

# The median of the numbers of a file, one a line.
median() {
    sort -n "$1" | awk '{ v[NR] = $1 } END { print v[int((NR + 1) / 2)] }'
}
