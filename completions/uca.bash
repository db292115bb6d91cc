# Completion of the command uca for bash: commands, options, the two weightings, and files.
# Written by tools/pages/completions.py from the help of the program. Do not edit.

_uca_files() {
    mapfile -t COMPREPLY < <(compgen -f -- "$1")
    compopt -o filenames 2> /dev/null
}

_uca_words() {
    mapfile -t COMPREPLY < <(compgen -W "$2" -- "$1")
}

# The options of a command. An option that takes part in the line is not offered twice.
_uca_options() {
    local command=$1 current=$2 line=$3 offered=() option
    for option in $(_uca_options_of "$command"); do
        [[ $line == *" $option "* ]] || offered+=("$option")
    done
    _uca_words "$current" "${offered[*]}"
}

_uca_options_of() {
    case $1 in
        '') echo "-h --help -V --version" ;;
        check) echo "-h --help" ;;
        keys) echo "--weighting --identical --numeric --lines --header --compact -h --help" ;;
        sort) echo "--weighting --identical --numeric -h --help" ;;
        compare) echo "--weighting --identical --numeric -h --help" ;;
        tailor) echo "-h --help" ;;
        audit) echo "-h --help" ;;
        affected) echo "--changes --numeric -h --help" ;;
        changes) echo "-h --help" ;;
        audit-changes) echo "-h --help" ;;
        rekey) echo "--weighting --identical --from --to -h --help" ;;
        compact) echo "--weighting --identical --from -h --help" ;;
        expand) echo "--weighting --identical --to -h --help" ;;
        book) echo "-h --help" ;;
        fingerprint) echo "--weighting --identical --numeric --compact -h --help" ;;
    esac
}

_uca_file_count() {
    case $1 in
        rekey | compact | expand) echo 1 ;;
        check | keys | sort | compare | affected | book | fingerprint) echo 2 ;;
        tailor) echo 4 ;;
        audit | changes) echo 5 ;;
        audit-changes) echo 6 ;;
        *) echo 0 ;;
    esac
}

# Reads the words before the current one: sets the command, how many arguments it has, and whether `--` is there.
_uca_read() {
    local at
    command='' count=0 ended=''
    for ((at = 1; at < COMP_CWORD; at++)); do
        case ${COMP_WORDS[at]} in
            *[\<\>]) ((at++)) ;;
            --weighting | --compact | --from | --to)
                [[ ${COMP_WORDS[at + 1]} == = ]] && ((at++))
                ((at++))
                ;;
            --) ended=1 ;;
            -?*) [[ $ended ]] && ((count++)) ;;
            *) if [[ $command ]]; then ((count++)); else command=${COMP_WORDS[at]}; fi ;;
        esac
    done
}

_uca() {
    local current=${COMP_WORDS[COMP_CWORD]} before=" ${COMP_WORDS[*]:0:COMP_CWORD} " command count ended
    local commands="check keys sort compare tailor audit affected changes audit-changes rekey compact expand book fingerprint help"
    COMPREPLY=()
    _uca_read
    case $before in
        *[\<\>]' ') _uca_files "$current" ;;
        *' --weighting ') _uca_words "${current#=}" "non-ignorable shifted" ;;
        *' --weighting = ') _uca_words "$current" "non-ignorable shifted" ;;
        *' --compact ' | *' --compact = ') ;;
        *' --from ' | *' --from = ') ;;
        *' --to ' | *' --to = ') ;;
        *)
            if [[ $current == -* && ! $ended ]]; then
                _uca_options "$command" "$current" "$before"
            elif [[ ! $command || $command == help && $count -eq 0 ]]; then
                _uca_words "$current" "$commands"
            elif ((count < $(_uca_file_count "$command"))); then
                _uca_files "$current"
            fi
            ;;
    esac
}

complete -F _uca uca
