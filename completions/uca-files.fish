# Completion of the command uca-files for fish: options, folders, and the tags of all languages with their names.
# Written by tools/pages/completions.py from the help of the script. Do not edit.

complete -c uca-files -f
complete -c uca-files -a '(uca-files --names 2> /dev/null | string replace -r "(.*): (.*)" "\$2\t\$1")'
complete -c uca-files -l into -x -a '(__fish_complete_directories)' -d 'where files are looked for and made'
complete -c uca-files -l edition -x -d 'one of several editions that are kept, such as 15.0.0-cldr41'
complete -c uca-files -l book -d 'prints a third path: a book for compact keys'
complete -c uca-files -l list -d 'prints what is kept'
complete -c uca-files -l names -d 'prints all languages and variants by plain names'
complete -c uca-files -l labels -d 'prints the labels of an index'
complete -c uca-files -l buckets -d 'prints each line of standard input after its label'
complete -c uca-files -l unicode -x -a '(__fish_complete_directories)' -d 'Unicode\'s files'
complete -c uca-files -l cldr -x -a '(__fish_complete_directories)' -d 'CLDR\'s files'
complete -c uca-files -l uca -x -a '(__fish_complete_command)' -d 'the program uca'
