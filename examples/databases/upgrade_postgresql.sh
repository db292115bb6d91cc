#!/bin/bash
# Takes a table of compact keys to a new edition of Unicode's table, in one transaction. Only rows whose key changes are written.
#
#     examples/databases/upgrade_postgresql.sh texts|none-affected OLD OLD_DATA NEW NEW_DATA CHANGES CERTIFICATE
#         [OPTION OF uca keys..]
#
# The table `compact_words` is one that load_compact_postgresql.sh made. Its keys have to be those of OLD, OLD_DATA and the options, and
# `uca audit-changes` has to accept CHANGES and CERTIFICATE, which `uca changes` wrote. After any error, and if the script is killed, all is
# as it was.
#
# With `texts` the keys of affected texts are made again from the column `word`. With `none-affected` no text is read, and this column need
# not be there. Then you have to know that no text is affected: keys alone do not say so, and the script cannot find out.
set -euo pipefail
. "$(dirname "$0")/usage.sh" 7 "$@"
case $1 in
texts) column=', word' ;;
none-affected) column= ;;
*)
    echo 'the first argument is texts or none-affected' >&2
    exit 2
    ;;
esac
old=$2 old_data=$3
export TEXTS=$1 NEW NEW_DATA CHANGES CERTIFICATE STEP OPTIONS="${*:8}" EACH=
NEW=$(realpath "$4") NEW_DATA=$(realpath "$5") CHANGES=$(realpath "$6") CERTIFICATE=$(realpath "$7")
STEP=$(dirname "$(realpath "$0")")/upgraded_keys.sh

made_by=$(uca keys --header "${@:8}" "$old" "$old_data" < /dev/null)
header=$(uca keys --header "${@:8}" "$NEW" "$NEW_DATA" < /dev/null)
if [ "$(psql -v ON_ERROR_STOP=1 -Atc 'select header from compact_made_by')" != "$made_by" ]; then
    echo 'the keys of the table were made by other files or settings' >&2
    exit 1
fi
if ! said=$(uca audit-changes "$old" "$old_data" "$NEW" "$NEW_DATA" "$CHANGES" "$CERTIFICATE"); then
    echo "the changes are not accepted: $said" >&2
    exit 1
fi

room=$(mktemp -d)
trap 'rm -rf "$room"' EXIT
cd "$room"
{
    # No other program can write from here on. The first error ends psql, and so all is taken back.
    echo 'begin;'
    echo 'lock table compact_words, compact_made_by in exclusive mode;'
    echo 'create temporary table holds ('
    echo '    header boolean constraint "the keys were made by other files or settings" check (header),'
    echo '    texts boolean constraint "a text has a line feed" check (texts)) on commit drop;'
    # Another program may have changed the keys since the test above.
    echo "insert into holds (header) select (select string_agg(header, ',') from compact_made_by) is not distinct from '$made_by';"
    if [ "$TEXTS" = texts ]; then
        # The rows are read as lines.
        echo 'insert into holds (texts) select not exists (select from compact_words where strpos(word, chr(10)) > 0);'
    fi
    echo '\o old.book'
    echo 'select book from compact_made_by;'
    echo '\o'
    echo "select upper(encode(key, 'hex')), number$column from compact_words \\g | bash \"\$STEP\""
    echo 'create temporary table again (key text, number bigint) on commit drop;'
    echo '\copy again from changed'
    echo "update compact_words set key = decode(again.key, 'hex') from again where compact_words.number = again.number;"
    echo '\set book `cat new.book`'
    echo "update compact_made_by set header = '$header', book = :'book';"
    echo 'commit;'
} | psql -q -X -At -F "$(printf '\t')" -v ON_ERROR_STOP=1 -v FETCH_COUNT=10000
