# Completion of the command uca-files for bash: options, folders, and the tags of all languages with their names.
# Written by tools/pages/completions.py from the help of the script. Do not edit.

_uca_files_command() {
    local current=${COMP_WORDS[COMP_CWORD]}
    COMPREPLY=()
    case ${COMP_WORDS[COMP_CWORD - 1]} in
        --into | --unicode | --cldr) mapfile -t COMPREPLY < <(compgen -d -- "$current") ;;
        --uca) mapfile -t COMPREPLY < <(compgen -c -- "$current") ;;
        --edition) ;;
        *)
            if [[ $current == -* ]]; then
                mapfile -t COMPREPLY < <(compgen -W "--into --edition --book --list --names --labels --buckets --unicode --cldr --uca --help" -- "$current")
            else
                mapfile -t COMPREPLY < <(compgen -W "$(uca-files --names 2> /dev/null | sed 's/.*: //')" -- "$current")
            fi
            ;;
    esac
}

complete -F _uca_files_command uca-files
