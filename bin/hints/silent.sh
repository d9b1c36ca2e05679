# Read by with_hints.sh, when a tool that counts has ended with 0.
#
# may_be_silent TOOL WORD.. says quickly, without Python, whether a native event of the words may be
# one for which no line of the streams counts, or which counts something else in a recording. It is
# never wrong when it says no. The script, the presets and the unit are read by awk, which writes a
# pattern for each native event; grep then looks for a line of each.

NEWLINE='
'

may_be_silent() (
    set -f
    IFS=$NEWLINE
    split_words "$@" || exit 0
    [ -n "$streams" ] || exit 1
    patterns=$(KL_TOOL=$1 KL_UNIT=$unit KL_PRESETS=$presets KL_CPU=$cpu KL_EVENTS=$events \
        KL_SCRIPT=$script LC_ALL=C awk "$PATTERNS" 2>/dev/null </dev/null) || exit 0
    for pattern in $patterns; do
        [ "$pattern" != '?' ] || exit 0
        # shellcheck disable=SC2086
        LC_ALL=C grep -E -q -e "$pattern" -- $streams 2>/dev/null || exit 0
    done
    exit 1
)

# Sets what the words name; fails if they are of a form that is left to Python. There are no
# `streams` if one of them can't be read again.
split_words() {
    unit="" presets="" cpu="" events="" script="" streams="" value="" are_unread="" is_past=""
    shift
    for word; do
        case $is_past$value:$word in
        unit:*) unit=$word ;;
        presets:*) presets=$word ;;
        cpu:*) cpu=$word ;;
        events:*) events=$word ;;
        skipped:*) ;;
        :--) is_past=past && continue ;;
        :-U) value=unit && continue ;;
        :-P) value=presets && continue ;;
        :-C) value=cpu && continue ;;
        :--events) value=events && continue ;;
        :-M | :--workers | :--thread | :--set | :--index) value=skipped && continue ;;
        :-U?*) unit=${word#-U} ;;
        :-P?*) presets=${word#-P} ;;
        :-C?*) cpu=${word#-C} ;;
        :--events=*) events=${word#*=} ;;
        :-M?* | :--notes | :--workers=* | :--thread=* | :--set=* | :--index=*) ;;
        :-?* | *"$NEWLINE"*) return 1 ;;
        *) [ -z "$script" ] && script=$word || take_stream "$word" ;;
        esac
        value=""
    done
    [ -z "$are_unread" ] || streams=""
}

take_stream() {
    [ -f "$1" ] && [ -r "$1" ] || are_unread=1
    streams="$streams$1$NEWLINE"
}

# shellcheck disable=SC2016
PATTERNS='
function put(set, name) { set[name] = 1 }
function trim(text) { gsub(/^[ \t]+|[ \t\r]+$/, "", text); return text }
function number_of(text,  value, at) {
    text = tolower(text)
    for (at = 1; at <= length(text); at++)
        value = 16 * value + index("0123456789abcdef", substr(text, at, 1)) - 1
    return value + 0
}
function bit(number, of) { return int(number / of) % 2 }
function shares(one, other,  of, count) {
    for (of = 1; of <= 8; of *= 2) count += bit(one, of) * bit(other, of)
    return count
}
function with_both(one, other,  of, both) {
    for (of = 1; of < 256; of *= 2) both += of * (bit(one, of) || bit(other, of))
    return both
}
function letters(number) { return substr("abcdef", number - 9, 1) substr("ABCDEF", number - 9, 1) }
function digit(number) { return number < 10 ? number "" : "[" letters(number) "]" }
function sharing(number,  value, all) {
    for (value = 0; value < 16; value++)
        if (shares(value, number)) all = all (value < 10 ? value "" : letters(value))
    return "[" all "]"
}
function mask_pattern(mask,  high, low, all) {
    high = int(mask / 16); low = mask % 16
    if (!mask) return ".."
    if (high) all = sharing(high) "."
    if (low) all = all (all ? "|" : "") "." sharing(low)
    return "(" all ")"
}
# A text that names a native event: what it asks for.
function want(text,  parts, count, at, rest) {
    if (text in wanted) return
    put(wanted, text)
    rest = toupper(text)
    if (index(rest, ":::")) { print "?"; return }
    at = index(rest, "::")
    pmu_of[text] = at ? substr(rest, 1, at - 1) : ""
    if (at) rest = substr(rest, at + 2)
    count = split(rest, parts, ":")
    name_of[text] = parts[1]
    for (at = 2; at <= count; at++) attributes[text] = attributes[text] ":" parts[at]
    attributes[text] = attributes[text] ":"
    texts[parts[1]] = texts[parts[1]] " " text
}
function read_row(line, to) { return split(line, to, ",") }
function read_names(  line, f, count, at, names) {
    if (ENVIRON["KL_TOOL"] == "papi_regions") {
        count = split(ENVIRON["KL_EVENTS"], names, ",")
        for (at = 1; at <= count; at++) put(named, names[at])
        return
    }
    while ((getline line < ENVIRON["KL_SCRIPT"]) > 0) {
        if (line ~ /^#/) continue
        split(trim(line), f, /[ \t]+/)
        if (f[2] == "add") put(named, f[4])
    }
}
function read_presets(  line, f, count, at, kind, in_group, ends) {
    while (ENVIRON["KL_PRESETS"] != "" && (getline line < ENVIRON["KL_PRESETS"]) > 0) {
        if (line ~ /^#/) continue
        count = read_row(line, f)
        kind = toupper(trim(f[1]))
        if (kind == "CPU") {
            if (ends) in_group = 0
            ends = 0
            if (trim(f[2]) == ENVIRON["KL_CPU"]) in_group = 1
        } else if (kind == "PRESET" || kind == "EVENT") {
            ends = 1
            if (!in_group || !(trim(f[2]) in named)) continue
            row[trim(f[2])] = line
        }
    }
    for (at in named) {
        if (!(at in row)) { if (at !~ /^PAPI_/) want(at); continue }
        count = read_row(row[at], f)
        for (kind = trim(f[3]) ~ /^DERIVED_(POSTFIX|INFIX)$/ ? 5 : 4; kind <= count; kind++) {
            if (trim(f[kind]) == "" || toupper(trim(f[kind])) ~ /^(NOTE|SDESC|LDESC)$/) break
            want(trim(f[kind]))
        }
    }
}
function read_unit(  line, f, component, pmu, count, at, here, has_here) {
    component = -1
    while ((getline line < ENVIRON["KL_UNIT"]) > 0) {
        if (line ~ /^# counted: /) is_counted = 1
        if (line ~ /^[ \t]*EVENT[ \t]*,/) {
            read_row(line, f)
            f[2] = toupper(trim(f[2]))
            count = f[2] in texts ? split(substr(texts[f[2]], 2), here, " ") : 0
            has_here = 0
            for (at = 1; at <= count; at++) {
                if ((here[at] in found) || (pmu_of[here[at]] != "" && pmu_of[here[at]] != pmu)) {
                    here[at] = ""
                    continue
                }
                put(found, here[at])
                has_here = 1
                is_processors[here[at]] = pmu ~ \
                    /^(NHM|WSM|SNB|IVB|HSW|BDW|SKL|SKX|CLX|ICL|ICX|SPR|AMD64)(_[A-Z0-9_]+)?$/
                amounts[here[at]] = attributes[here[at]] ~ /:C=/
                select = number_of(trim(f[3]))
                heads[here[at]] = component "." digit(int(select / 16)) digit(select % 16)
                masks[here[at]] = defaults[here[at]] = chosen[here[at]] = 0
            }
        } else if (has_here && line ~ /^[ \t]*UMASK[ \t]*,/) {
            read_row(line, f)
            f[2] = toupper(trim(f[2]))
            for (at = 1; at <= count; at++) {
                if (here[at] == "") continue
                if (trim(f[4]) ~ /d/) defaults[here[at]] = number_of(trim(f[3]))
                if (!index(attributes[here[at]], ":" f[2] ":")) continue
                chosen[here[at]] = 1
                masks[here[at]] = with_both(masks[here[at]], number_of(trim(f[3])))
            }
        } else if (has_here && line ~ /^[ \t]*UMASK_MODIFIERS[ \t]*,/) {
            for (at = 1; at <= count; at++) if (here[at] != "") amounts[here[at]] = 1
        } else if (line ~ /COMPONENT/ && line !~ /^#/) {
            read_row(line, f)
            if (trim(f[1]) ~ /COMPONENT$/) { component++; pmu = toupper(trim(f[3])); has_here = 0 }
        }
    }
}
# What may count something else in a recording: events with the codes of a real processor, and
# least amounts.
function is_other(text) { return is_processors[text] && (!is_counted || amounts[text]) }
function mode_of(text,  user, kernel) {
    user = attributes[text] ~ /:U(=[1YT])?:/; kernel = attributes[text] ~ /:K(=[1YT])?:/
    return user == kernel ? "." : user ? "u" : "k"
}
BEGIN {
    read_names(); read_presets(); read_unit()
    for (text in found) if (is_other(text)) print "?"
    for (text in found)
        printf "^%s.%s.%s.\n", heads[text],
            mask_pattern(chosen[text] ? masks[text] : defaults[text]), mode_of(text)
}'
