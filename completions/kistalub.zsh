#compdef papi_avail papi_compare papi_count papi_decode papi_encode papi_event_chooser papi_native_avail papi_plan papi_profil papi_record papi_regions papi_run papi_soak
# Completion of the tools for zsh: source this file after compinit, or put a link to it into a folder of fpath, as _kistalub.
_kistalub_folder=${${(%):-%x}:A:h}

# The words go without their quotes, and zsh puts its own around the answers.
_kistalub() {
    local found
    local -a each
    found=$("$_kistalub_folder/candidates" "${(@Q)words[1,CURRENT-1]}" "${(Q)PREFIX}")
    if (( $? == 3 )); then
        (( ! $#found )) || compset -p $#found
        _files
    elif [[ -n $found ]]; then
        each=("${(@f)found}")
        compadd -a each
    fi
}

if [[ ${funcstack[1]-} == _kistalub* ]]; then
    _kistalub
else
    compdef _kistalub papi_avail papi_compare papi_count papi_decode papi_encode papi_event_chooser papi_native_avail papi_plan papi_profil papi_record papi_regions papi_run papi_soak
fi
