#!/bin/bash
# Puts the lines of a file, with their keys, into a new table `words` of a SQLite database. The table `made_by` keeps the header of
# the keys, which says by which files and settings they were made.
#
#     examples/databases/load_sqlite.sh TABLE DATA LINES DATABASE [OPTION OF uca keys..]
#
# It needs `uca` on the path, and the Debian package sqlite3.
set -euo pipefail
. "$(dirname "$0")/usage.sh" 4 "$@"
table=$1 data=$2 lines=$3 database=$4
shift 4

# The header, and then KEY TAB LINE. This is a file and no pipe, so that nothing is loaded where `uca` rejects a line.
keyed=$(mktemp)
trap 'rm -f "$keyed"' EXIT
uca keys --lines --header "$@" "$table" "$data" < "$lines" > "$keyed"

{
    echo 'begin;'
    echo 'create table words (number integer primary key, key blob not null, word text not null);'
    echo 'create table made_by (header text not null);'
    sed -e "1!d" -e "s/.*/insert into made_by values ('&');/" "$keyed"
    # x'1C47..' is a blob. In the text each ' is written twice; the first tab of a line ends the key.
    sed -e 1d -e "s/'/''/g" -e "s/\t/', '/" -e "s/^/insert into words (key, word) values (x'/" -e "s/\$/');/" "$keyed"
    echo 'create index words_key on words (key);'
    echo 'commit;'
} | sqlite3 -bail "$database"
