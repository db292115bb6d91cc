#!/bin/bash
# Takes a table of compact keys to a new edition of Unicode's table, in one transaction. Only rows whose key changes are written.
#
#     examples/databases/upgrade_sqlite.sh texts|none-affected OLD OLD_DATA NEW NEW_DATA CHANGES CERTIFICATE DATABASE
#         [OPTION OF uca keys..]
#
# DATABASE is one that load_compact_sqlite.sh made. Its keys have to be those of OLD, OLD_DATA and the options, and `uca audit-changes` has
# to accept CHANGES and CERTIFICATE, which `uca changes` wrote. After any error, and if the script is killed, all is as it was.
#
# With `texts` the keys of affected texts are made again from the column `word`. With `none-affected` no text is read, and this column need
# not be there. Then you have to know that no text is affected: keys alone do not say so, and the script cannot find out.
set -euo pipefail
. "$(dirname "$0")/usage.sh" 8 "$@"
case $1 in
texts) column=', word' ;;
none-affected) column= ;;
*)
    echo 'the first argument is texts or none-affected' >&2
    exit 2
    ;;
esac
old=$2 old_data=$3 database=$(realpath "$8")
export TEXTS=$1 NEW NEW_DATA CHANGES CERTIFICATE STEP OPTIONS="${*:9}" EACH="s/(.*)\t(.*)/update compact_words set key = x'\1' where number = \2;/"
NEW=$(realpath "$4") NEW_DATA=$(realpath "$5") CHANGES=$(realpath "$6") CERTIFICATE=$(realpath "$7")
STEP=$(dirname "$(realpath "$0")")/upgraded_keys.sh

made_by=$(uca keys --header "${@:9}" "$old" "$old_data" < /dev/null)
header=$(uca keys --header "${@:9}" "$NEW" "$NEW_DATA" < /dev/null)
if [ "$(sqlite3 "$database" 'select header from compact_made_by')" != "$made_by" ]; then
    echo 'the keys of the database were made by other files or settings' >&2
    exit 1
fi
if ! said=$(uca audit-changes "$old" "$old_data" "$NEW" "$NEW_DATA" "$CHANGES" "$CERTIFICATE"); then
    echo "the changes are not accepted: $said" >&2
    exit 1
fi

room=$(mktemp -d)
trap 'rm -rf "$room"' EXIT
cd "$room"
{
    # No other program can write from here on. The first error ends sqlite3, and so all is taken back.
    echo 'begin immediate;'
    echo 'create temporary table holds ('
    echo '    header integer constraint "the keys were made by other files or settings" check (header),'
    echo '    texts integer constraint "a text has a line feed or U+0000" check (texts));'
    # Another program may have changed the keys since the test above.
    echo "insert into holds (header) select (select group_concat(header) from compact_made_by) is '$made_by';"
    if [ "$TEXTS" = texts ]; then
        # The rows are read as lines.
        echo 'insert into holds (texts) select not exists (select * from compact_words where instr(word, char(10)) or instr(word, char(0)));'
    fi
    echo '.once old.book'
    echo 'select book from compact_made_by;'
    echo '.separator "\t"'
    echo ".once '|bash \"\$STEP\"'"
    echo "select hex(key), number$column from compact_words;"
    echo '.read changed'
    echo "update compact_made_by set header = '$header', book = rtrim(cast(readfile('new.book') as text), char(10));"
    echo 'commit;'
} | sqlite3 -bail "$database"
