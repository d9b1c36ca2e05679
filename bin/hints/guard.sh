# Read by scripts that make a folder or start a program: none is left when the script ends, whatever
# ends it.
#
# guarded_folder WORD.. sets `guarded` to a new folder, by `mktemp -d WORD..`. A process beside the
# script removes it when the script is gone. It knows that by a fifo which the script alone holds
# open, by the descriptor `hold`, and it ends the program whose number the script has written there.
# It fails where there is no such folder.
# end_by_signals has any signal end the script with a status of its own, so that a trap of EXIT
# takes the folder away at once.

# All signals that end a process, but for the one that can't be caught.
ENDING="1 2 3 4 5 6 7 8 10 11 12 13 14 15 16 24 25 26 27 29 30 31"
ENDING="$ENDING 34 35 36 37 38 39 40 41 42 43 44 45 46 47 48 49 50 51 52 53 54 55 56 57 58 59 60"
ENDING="$ENDING 61 62 63 64"

guarded=

ignore_signals() {
    # shellcheck disable=SC2086
    trap '' $ENDING
}

# Sets `spare` to a descriptor that nobody uses, neither the caller.
find_spare() {
    for spare in 7 6 5 4 3 8 9; do
        eval "{ true <&$spare; } 2>/dev/null" || return 0
    done
    return 1
}

# A folder that takes no bytes, as where a limit forbids them, is none.
guarded_folder() {
    guarded=$(
        ignore_signals
        made=$(mktemp -d "$@") || exit
        if { mkfifo -- "$made/.end" && (trap - XFSZ && echo >"$made/.bytes"); } 2>/dev/null; then
            printf %s "$made"
        else
            rm -rf -- "$made"
            exit 1
        fi
    ) || return
    if find_spare; then
        hold=$spare
        guard <"$guarded/.end" >/dev/null 2>&1 &
        eval "exec $hold>\"\$guarded/.end\""
    else
        hold=
    fi
}

# Waits until the script is gone, which tells the number of a program that runs, or nothing when it
# has ended.
guard() {
    ignore_signals
    program=
    while read -r line; do program=$line; done
    tries=0
    while [ -n "$program" ] && kill -s TERM "$program" && [ "$tries" != 50 ]; do
        sleep 0.1 || break
        tries=$((tries + 1))
    done
    [ -z "$program" ] || kill -s KILL "$program"
    exec rm -rf -- "$guarded"
}

# Tells the guard which program runs.
tell_guard() {
    [ -z "$hold" ] || echo "$1" >&"$hold"
}

end_by_signals() {
    for number in $ENDING; do
        # shellcheck disable=SC2064
        trap "exit $((128 + number))" "$number"
    done
}
