# Completion of the command uca for fish: commands, options, the two weightings, and files.
# Written by tools/pages/completions.py from the help of the program. Do not edit.

# The command and its arguments, without options. The file of a redirection counts too, since fish does not tell it apart.
function __uca_arguments
    set -l skip 0
    for word in (commandline -opc)[2..-1]
        if test $skip = 1
            set skip 0
        else if contains -- "$word" --weighting --compact --from --to
            set skip 1
        else if not string match -q -- '-*' $word
            echo $word
        end
    end
end

# Whether the command is one of these.
function __uca_has_command
    set -l words (__uca_arguments)
    contains -- "$words[1]" $argv
end

# Whether the command is one of these, and has no option of this name yet.
function __uca_wants_option
    __uca_has_command $argv[2..-1]; and not __fish_contains_opt $argv[1]
end

# Whether the command is one of these, and has fewer than so many arguments.
function __uca_wants_file
    set -l words (__uca_arguments)
    test (count $words) -gt 0; and test (count $words) -le $argv[1]; and contains -- $words[1] $argv[2..-1]
end

complete -c uca -f
complete -c uca -n 'not __uca_has_command help' -s h -l help -d 'Print help'
complete -c uca -n 'not __uca_has_command check keys sort compare tailor audit affected changes audit-changes rekey compact expand book fingerprint help' -s V -l version -d 'Print version'

complete -c uca -n __fish_use_subcommand -a check -d 'Say whether a weight table is well-formed'
complete -c uca -n __fish_use_subcommand -a keys -d 'Print the sort key of each line of standard input'
complete -c uca -n __fish_use_subcommand -a sort -d 'Sort the lines of standard input by their sort keys'
complete -c uca -n __fish_use_subcommand -a compare -d 'Say how two texts compare, and at which level they differ'
complete -c uca -n __fish_use_subcommand -a tailor -d 'Tailor a weight table by rules'
complete -c uca -n __fish_use_subcommand -a audit -d 'Say whether a tailored table is what its rules say'
complete -c uca -n __fish_use_subcommand -a affected -d 'Print the lines of standard input that rules or changes may move'
complete -c uca -n __fish_use_subcommand -a changes -d 'Find what changes from an old weight table to a new one'
complete -c uca -n __fish_use_subcommand -a audit-changes -d 'Say whether changes and their certificate are right'
complete -c uca -n __fish_use_subcommand -a rekey -d 'Mend the stored keys on standard input by a certificate'
complete -c uca -n __fish_use_subcommand -a compact -d 'Make the stored keys on standard input shorter by a book'
complete -c uca -n __fish_use_subcommand -a expand -d 'Make the keys of the compact keys on standard input'
complete -c uca -n __fish_use_subcommand -a book -d 'Print what a book becomes by a certificate'
complete -c uca -n __fish_use_subcommand -a fingerprint -d 'Print the fingerprint of what keys are made by'
complete -c uca -n __fish_use_subcommand -a help -d 'Print this message or the help of the given subcommand(s)'
complete -c uca -n '__uca_wants_file 1 help' -a 'check keys sort compare tailor audit affected changes audit-changes rekey compact expand book fingerprint help'

complete -c uca -n '__uca_has_command keys sort compare fingerprint' -l weighting -x -a 'non-ignorable shifted' -d 'non-ignorable or shifted'
complete -c uca -n '__uca_wants_option identical keys sort compare fingerprint' -l identical -d 'Compare texts that weigh the same by their code points too'
complete -c uca -n '__uca_wants_option numeric keys sort compare fingerprint' -l numeric -d 'Compare numbers of the digits 0 to 9 by their values: `9` comes before `10`'
complete -c uca -n '__uca_wants_option lines keys' -l lines -d 'Print the key without blanks, a tab and the line'
complete -c uca -n '__uca_wants_option header keys' -l header -d 'Print a first line that says what made the keys'
complete -c uca -n '__uca_has_command keys' -l compact -x -d 'Print compact keys, made by this book'
complete -c uca -n '__uca_wants_option changes affected' -l changes -d 'RULES is a file of changes, and DATA the new data file'
complete -c uca -n '__uca_wants_option numeric affected' -l numeric -d 'The lines are keyed or sorted with --numeric'
complete -c uca -n '__uca_has_command rekey compact expand' -l weighting -x -a 'non-ignorable shifted' -d 'non-ignorable or shifted, as the keys were made'
complete -c uca -n '__uca_wants_option identical rekey compact expand' -l identical -d 'The keys were made with --identical'
complete -c uca -n '__uca_has_command rekey compact' -l from -x -d 'The input has a header with this fingerprint'
complete -c uca -n '__uca_has_command rekey' -l to -x -d 'Print a header with this fingerprint, that of the new table and data file'
complete -c uca -n '__uca_has_command expand' -l to -x -d 'Print a header of keys with this fingerprint'
complete -c uca -n '__uca_has_command fingerprint' -l compact -x -d 'Print the fingerprint of compact keys that are made by this book'

complete -c uca -n '__uca_wants_file 1 rekey compact expand' -F
complete -c uca -n '__uca_wants_file 2 check keys sort compare affected book fingerprint' -F
complete -c uca -n '__uca_wants_file 4 tailor' -F
complete -c uca -n '__uca_wants_file 5 audit changes' -F
complete -c uca -n '__uca_wants_file 6 audit-changes' -F
