# Completion of the tools for bash: source this file, or a link to it.
_kistalub_folder=$(dirname -- "$(realpath -- "${BASH_SOURCE[0]}")")

# Cuts a line into `words` as the shell does, without their quotes, and expands nothing. The last word, which is being written, may be empty; `quote` is the one
# that is open there.
_kistalub_cut() {
    local line=$1 sign word='' begun='' at
    words=() quote=''
    for ((at = 0; at < ${#line}; at++)); do
        sign=${line:at:1}
        case $quote$sign in
        "''" | '""') quote='' ;;
        \'?) word+=$sign ;;
        \"\\)
            case ${line:at+1:1} in
            [\$\`\"\\]) at=$((at + 1)) ;;
            esac
            word+=${line:at:1}
            ;;
        \"?) word+=$sign ;;
        \' | \") quote=$sign begun=1 ;;
        \\) at=$((at + 1)) word+=${line:at:1} begun=1 ;;
        [[:space:]])
            [[ -z $word$begun ]] || words+=("$word")
            word='' begun=''
            ;;
        *) word+=$sign ;;
        esac
    done
    words+=("$word")
}

# A word as it is to stand on the line behind what is there: nothing of it means anything to the shell.
_kistalub_quoted() {
    local text=$1 result='' sign at
    for ((at = 0; at < ${#text}; at++)); do
        sign=${text:at:1}
        case $quote$sign in
        \'\') result+="'\\''" ;;
        \'?) result+=$sign ;;
        \"[\$\`\"\\]) result+=\\$sign ;;
        '"!') result+="\"'!'\"" ;;
        \"?) result+=$sign ;;
        [[:alnum:]_:,./=+@%^-]) result+=$sign ;;
        *) result+=\\$sign ;;
        esac
    done
    # (readline closes the quote, but not behind one)
    [[ -n $quote && $text == *"$quote" ]] && result+=$quote
    printf '%s\n' "$result"
}

# The names of files that begin with a text, each ended by a NUL.
_kistalub_files() (
    shopt -s nullglob
    shopt -u failglob nocaseglob dotglob
    set +f
    GLOBIGNORE=''
    home=''
    case $1 in
    "~"/*) [[ -e ${1%/*} ]] || home=$HOME ;;
    esac
    begun=${1#"${home:+"~"}"}
    for path in "$home$begun"*; do
        path=${home:+"~"}${path#"$home"}
        printf '%s\0' "$path"
    done
)

# Answers with COMPREPLY. bash puts an answer in place of `$2`, which is the part of the word behind the last of COMP_WORDBREAKS.
_kistalub() {
    local line=${COMP_LINE:0:COMP_POINT} words quote found current before status word files
    _kistalub_cut "${line%"${2-}"}"
    before=${words[-1]}
    _kistalub_cut "$line"
    current=${words[-1]}
    found=$("$_kistalub_folder/candidates" "${words[@]}")
    status=$?
    COMPREPLY=()
    if [ "$status" = 3 ]; then
        compopt -o filenames 2>/dev/null
        mapfile -d '' -t files < <(_kistalub_files "${current#"$found"}")
        for word in "${files[@]}"; do
            # (bash marks a folder itself, if it is given the whole name)
            [[ $found != "$before" && -d $word ]] && word+=/ && compopt -o nospace 2>/dev/null
            word=$found$word
            COMPREPLY+=("${word#"$before"}")
        done
        return
    fi
    mapfile -t words <<<"$found"
    for word in "${words[@]}"; do
        [[ -n $word && $word == "$current"* ]] && COMPREPLY+=("$(_kistalub_quoted "${word#"$before"}")")
    done
}

complete -F _kistalub papi_avail papi_compare papi_count papi_decode papi_encode papi_event_chooser papi_native_avail papi_plan papi_profil papi_record papi_regions papi_run papi_soak
