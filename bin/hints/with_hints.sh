# Read by the scripts of the tools, which define run_program: it runs the program with a tool and
# its words, in place of the shell.
#
# with_hints HINTS NAME TOOL WORD.. runs the tool, and ends with its status. What the program writes
# stays as it is, and comes while it runs. After it come lines `hint: ..` on standard error, if the
# program says no or refuses something, or what was asked for is not there. HINTS is the folder of
# this file, and NAME what the tool is called by. A signal to this shell alone ends the program too,
# and then the shell by the same signal.
# Without hints the tool runs in place of this shell: with KISTALUB_HINTS=0, without Python, if
# standard output or error is closed, and if no temporary folder can be made.
# If standard error is a terminal, a long run has a line there that says how far it is
# (progress.sh). With the word --quiet nothing is added, neither hints nor that line.
# With the word --strict the status is 1 in place of 0 if a call was refused, or a native event
# counted 0 because no line of the streams counts for it.

SILENT_STATUS=10 # of the hints

with_hints() {
    hints=$1
    name=$2
    shift 2
    . "$hints/guard.sh"
    # The words --quiet and --strict are taken out. After -- no word is an option.
    left=$# quiet="" strict="" ended=""
    while [ "$left" != 0 ]; do
        case $ended$1 in
        --quiet) quiet=1 ;;
        --strict) strict=1 ;;
        *)
            [ "$1" != -- ] || ended=1
            set -- "$@" "$1"
            ;;
        esac
        shift
        left=$((left - 1))
    done
    hinting=1 ticking=""
    if [ "${KISTALUB_HINTS-1}" = 0 ] || [ -n "$quiet" ] ||
        ! command -v python3 >/dev/null 2>&1; then
        hinting=
    fi
    [ -z "$strict" ] || prepare_strict
    if [ -z "$quiet" ] && [ -t 2 ] && [ "${TERM-dumb}" != dumb ]; then
        ticking=1
        . "$hints/progress.sh"
    fi
    if [ -z "$hinting$ticking$strict" ] || ! { true 9>&1; } 2>/dev/null || ! { true 9>&2; }; then
        run_program "$@"
    fi
    tool=$1
    set_telling
    caught="" process="" folder=""
    trap remove_folder EXIT
    # The shell may say on standard error that a signal ended what it has started, and nobody may
    # read that.
    trap : PIPE
    for signal in $ENDING; do
        # shellcheck disable=SC2064
        [ "$signal" = 13 ] || trap "caught=$signal; stop_program" "$signal"
    done
    make_folder || run_unwatched "$@"
    end_if_caught
    : >"$folder/said"
    : >"$folder/told"
    run_watched "$@"
    add_hints "$@"
    [ -z "$strict" ] || be_strict "$@"
    end_if_caught
    exit "$status"
}

# Sets `telling`: what a line of the output has if there may be something to hint at though the
# status is 0; and `values`: what it has if it tells counts, of which some may have no line in the
# streams.
set_telling() {
    values=""
    case $tool in
    papi_run)
        telling='^[0-9]* [0-9]* [a-z]* PAPI_E'
        values='^[0-9]* [0-9]* (read|stop|accum) PAPI_OK '
        ;;
    papi_profil)
        telling='^total 0$'
        values='^total [1-9]'
        ;;
    papi_regions)
        telling=
        values='^[0-9]* [^ ]* [^ ]* '
        ;;
    papi_avail) telling='^Of [0-9]* possible events, 0 |^Available: No' ;;
    papi_native_avail | papi_event_chooser) telling='^Total events: 0$' ;;
    papi_decode) telling='^(PRESET|EVENT),' ;; # a list without such a line
    *) telling= ;;
    esac
    sought=$telling${telling:+${values:+|}}$values
}

# What --strict asks for is found out by Python, over what the program says.
prepare_strict() {
    command -v python3 >/dev/null 2>&1 || { echo "$name: --strict needs python3" >&2 && exit 127; }
    { true 9>&2; } 2>/dev/null || exec 2>/dev/null
}

make_folder() {
    guarded_folder 2>/dev/null && folder=$guarded &&
        mkfifo -- "$folder/out" "$folder/err" "$folder/copy"
}

# A signal to all that runs would end what removes it too.
remove_folder() {
    ignore_signals
    rm -rf -- "$folder"
}

run_unwatched() {
    end_if_caught
    rm -rf -- "$folder"
    [ -z "$strict" ] || { echo "$name: --strict needs a temporary folder" >&2 && exit 127; }
    run_program "$@"
}

# Runs the tool, and sets `status`. The file `told` in the folder has the telling lines of its
# output, and what it said on standard error.
# If both outputs go to the same file, they go there through one pipe, so that they stay in order.
run_watched() {
    relays="" finder="" together=""
    # shellcheck disable=SC3013
    if [ /dev/fd/1 -ef /dev/fd/2 ]; then
        together=1
        start_relay out copy
        start_finder "^papi: ${sought:+|$sought}"
    else
        start_relay err said >&2
        if [ -n "$sought" ]; then
            start_relay out copy 8>&-
            start_finder "$sought"
        fi
    fi 8>&2
    start_program "$@"
    wait_for "$process"
    status=$?
    process=
    tell_guard ""
    # shellcheck disable=SC2086
    [ -z "$caught" ] || end_all $relays $finder
    # A write that fails ends the program with 5, so it does here.
    for each in $relays; do
        wait_for "$each" || status=5
    done
    [ -z "$finder" ] || wait_for "$finder"
    end_if_caught
    [ ! -s "$folder/said" ] || cat -- "$folder/said" >>"$folder/told"
}

start_relay() {
    eval "relay \"\$1\" \"\$2\" ${hold:+$hold>&-} &"
    relays="$relays $!"
}

# What is looked for in a copy goes to the file `told`.
start_finder() {
    (
        ignore_signals
        trap - PIPE TERM
        LC_ALL=C
        export LC_ALL
        [ -z "$hold" ] || eval "exec $hold>&-"
        exec grep -E -e "$1" <"$folder/copy" >"$folder/told" 2>/dev/null 8>&-
    ) &
    finder=$!
}

# Passes on what comes through the fifo $1, and copies it to the file $2, whatever signal a terminal
# sends to all. If descriptor 8 is open and a terminal, the progress line stands there up to the
# first byte.
relay() {
    ignore_signals
    trap - PIPE TERM
    if [ -n "$ticking" ] && { [ -t 8 ]; } 2>/dev/null; then
        relay_with_line "$1" "$2"
    else
        exec tee -- "$folder/$2" <"$folder/$1" 8>&-
    fi 2>/dev/null
}

# What is started and not waited for has no standard input of its own: it comes by a descriptor that
# the caller does not use.
start_program() {
    if find_spare && eval "{ true $spare<&0; } 2>/dev/null"; then
        eval "{ run_with_outputs \"\$@\" <&$spare $spare<&- ${hold:+$hold>&-} & } $spare<&0"
    else
        eval "run_with_outputs \"\$@\" <&- ${hold:+$hold>&-} &"
    fi
    process=$!
    tell_guard "$process"
    [ -z "$ticking" ] || echo "$process" >"$folder/process"
    [ -z "$caught" ] || stop_program
}

run_with_outputs() {
    if [ -n "$together" ]; then
        run_program "$@" >"$folder/out" 2>&1
    elif [ -n "$sought" ]; then
        run_program "$@" >"$folder/out" 2>"$folder/err"
    else
        run_program "$@" 2>"$folder/err"
    fi
}

# Waits for the end of a process. A signal that is caught ends the waiting alone. What it ends then
# is not told by the shell.
wait_for() {
    while :; do
        if [ -z "$caught" ]; then
            wait "$1"
        else
            [ "$1" != "$process" ] || end_all "$1"
            wait "$1" 2>/dev/null
        fi
        ended=$?
        [ -n "$caught" ] && kill -0 "$1" 2>/dev/null || return "$ended"
    done
}

# What is started so takes no interrupt.
stop_program() {
    [ -z "$process" ] || kill -s TERM "$process" 2>/dev/null
}

# A process that was started a moment ago may lose a signal, so each has it again after a second,
# until it is gone. `jobs` forgets those that are.
end_all() {
    kill -s TERM "$@" 2>/dev/null
    for one in "$@"; do
        looks=0
        while jobs >/dev/null 2>&1 && kill -0 "$one" 2>/dev/null; do
            sleep 0.1
            looks=$((looks + 1))
            [ "$((looks % 10))" != 0 ] || kill -s TERM "$one" 2>/dev/null
        done
    done
}

end_if_caught() {
    [ -n "$caught" ] || return 0
    remove_folder
    trap - EXIT "$caught"
    kill -s "$caught" "$$"
    exit $((128 + caught)) # some shells do not end by each signal
}

# Python starts only if the program said something, or an output has a telling line or lacks one, or
# a value may lack its lines.
add_hints() {
    is_silent=
    [ -n "$hinting$strict" ] || return 0
    case $status:$tool in
    [0345]:papi_encode | [0345]:papi_soak | [345]:papi_regions | 1:papi_soak) return ;;
    0:papi_decode) ! [ -s "$folder/told" ] || return 0 ;;
    0:*) [ -s "$folder/told" ] && tells_more "$@" || return 0 ;;
    [12]:*) ;;
    *) return ;;
    esac
    # What Python makes of its sources is kept, so that hints come at once.
    cache=${XDG_CACHE_HOME:-${HOME:+$HOME/.cache}}
    if [ -n "$cache" ]; then
        set -- -X pycache_prefix="$cache/kistalub/bytecode" "$hints" "$name" "$status" "$@"
    else
        set -- -B "$hints" "$name" "$status" "$@"
    fi
    if [ -n "$hinting" ]; then
        python3 -I -S "$@" <"$folder/told" >&2 2>/dev/null
    else
        python3 -I -S "$@" <"$folder/told" >/dev/null 2>&1
    fi
    [ $? != "$SILENT_STATUS" ] || is_silent=1
}

# Whether a line was found beside those of values, or a value may lack its lines.
tells_more() {
    [ -n "$values" ] && ! grep -E -q -v -e "$values" -- "$folder/told" || return 0
    . "$hints/silent.sh"
    may_be_silent "$@"
}

be_strict() {
    [ "$status" = 0 ] || return 0
    case $tool in
    papi_run) ! grep -E -q -e "$telling" -- "$folder/told" || status=1 ;;
    papi_profil) ! run_again "$@" | grep -E -q -e ' PAPI_E' || status=1 ;;
    esac
    [ -z "$is_silent" ] || status=1
}

# The replies of the script of a profile.
run_again() (
    . "$hints/silent.sh"
    split_words "$@" && [ -n "$streams" ] || exit
    set -- -U "$unit"
    [ -z "$presets" ] || set -- "$@" -P "$presets" -C "$cpu"
    set -f
    IFS=$NEWLINE
    # shellcheck disable=SC2086
    run_program papi_run "$@" -- "$script" $streams 2>/dev/null
)
