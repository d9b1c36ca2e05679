# Completion of the tools for fish: source this file.
set -g __kistalub_folder (path dirname (path resolve (status filename)))

# fish puts its own quotes around what this prints.
function __kistalub_candidates
    set -l current (commandline -ct)
    set -l found ($__kistalub_folder/candidates (commandline -opc) $current)
    if test $status = 3
        set -l front "$found"
        set -l begun (string sub --start (math (string length -- "$front") + 1) -- "$current")
        for path in (complete -C "'' $begun")
            printf '%s\n' $front$path
        end
    else
        printf '%s\n' $found
    end
end

for tool in papi_avail papi_compare papi_count papi_decode papi_encode papi_event_chooser papi_native_avail papi_plan papi_profil papi_record papi_regions papi_run papi_soak
    complete -c $tool -f -a '(__kistalub_candidates)'
end
