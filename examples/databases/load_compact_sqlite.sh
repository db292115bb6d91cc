#!/bin/bash
# Puts the lines of a file, with their compact keys, into a new table `compact_words` of a SQLite database. The table `compact_made_by`
# keeps the header of the whole keys, which says by which files and settings they were made, and the book.
#
#     examples/databases/load_compact_sqlite.sh TABLE DATA BOOK LINES DATABASE [OPTION OF uca keys..]
#
# The options are --weighting, --identical and --numeric. It needs `uca` on the path, and the Debian package sqlite3.
set -euo pipefail
. "$(dirname "$0")/usage.sh" 5 "$@"
table=$1 data=$2 book=$3 lines=$4 database=$5
shift 5

# What is made of keys does not depend on --numeric, so `uca compact` does not take it.
of_keys=()
for option in "$@"; do
    if [ "$option" != --numeric ]; then of_keys+=("$option"); fi
done

# KEY TAB LINE. These are files and no pipe, so that nothing is loaded where `uca` rejects a line.
keyed=$(mktemp) compact=$(mktemp)
trap 'rm -f "$keyed" "$compact"' EXIT
uca keys --lines "$@" "$table" "$data" < "$lines" > "$keyed"
uca compact "${of_keys[@]}" "$book" < "$keyed" > "$compact"

{
    echo 'begin;'
    echo 'create table compact_words (number integer primary key, key blob not null, word text not null);'
    echo 'create table compact_made_by (header text not null, book text not null);'
    echo "insert into compact_made_by values ('$(uca keys --header "$@" "$table" "$data" < /dev/null)', '$(cat "$book")');"
    # x'0A03' is a blob. In the text each ' is written twice; the first tab of a line ends the key.
    sed -e "s/'/''/g" -e "s/\t/', '/" -e "s/^/insert into compact_words (key, word) values (x'/" -e "s/\$/');/" "$compact"
    echo 'create index compact_words_key on compact_words (key);'
    echo 'commit;'
} | sqlite3 -bail "$database"
