# Read by with_hints.sh, if standard error is a terminal.
#
# relay_with_line passes on what comes through a fifo. If a run takes more than half a second a line
# stands on the terminal (descriptor 8) until then: how long it has taken, and how much of the
# streams was read. The line goes when the first byte comes, or the end, or a signal to terminate,
# which ends all that was started here.

# How much of its streams a process has read: nothing if that can't be told. These are the files
# that it has open beside the standard streams.
part_read() {
    place=0 size=0
    for link in /proc/"$1"/fd/*; do
        case ${link##*/} in
        [012] | '*') continue ;;
        esac
        [ -f "$link" ] || continue
        read -r _ at <"/proc/$1/fdinfo/${link##*/}" || continue
        place=$((place + at)) size=$((size + $(stat -L -c %s "$link"))) || return
    done
    [ "$size" = 0 ] || echo ", $((100 * place / size)) % of the streams read"
}

# Whether a process is the program, or what loads it.
is_program() {
    case $(readlink "/proc/$1/exe") in
    */papi | */ld-linux*) ;;
    *) return 1 ;;
    esac
}

# Writes the line again and again until it is told to end, or the shell that runs the tool is gone.
# Then the line goes, if there was one.
tick() {
    begun=$(date +%s)
    shown=
    waiting=
    trap 'kill "$waiting"; leave_line' TERM
    pause=0.5
    while kill -0 "$$"; do
        sleep "$pause" &
        waiting=$!
        wait "$waiting"
        part=
        ! read -r process <"$folder/process" || ! is_program "$process" ||
            part=$(part_read "$process")
        shown=1
        printf '\r%s: %s s%s\033[K' "$tool" "$(($(date +%s) - begun))" "$part"
        pause=1
    done
    leave_line
} 2>/dev/null

leave_line() {
    [ -z "$shown" ] || printf '\r\033[K'
    exit
}

# A shell may say on standard error that it was told to end, if that came before it could listen.
end_line() {
    [ -z "$ticker" ] || { kill "$ticker" && wait "$ticker"; }
    ticker=
} 2>/dev/null

relay_with_line() {
    ticker="" reader=""
    trap 'end_line; [ -z "$reader" ] || kill "$reader"; exit 1' TERM
    exec 7<"$folder/$1"
    tick </dev/null >&8 7<&- &
    ticker=$!
    { dd bs=1 count=1 <&7 7<&- >"$folder/first" 8>&- & } 2>/dev/null
    reader=$!
    wait "$reader"
    end_line
    exec 8>&-
    cat -- "$folder/first" - <&7 | tee -- "$folder/$2" 7<&- &
    reader=$!
    exec 7<&-
    wait "$reader"
}
