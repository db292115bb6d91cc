#!/bin/bash
# Puts the lines of a file, with their compact keys, into a new table `compact_words` of a PostgreSQL database. The table
# `compact_made_by` keeps the header of the whole keys, which says by which files and settings they were made, and the book.
#
#     examples/databases/load_compact_postgresql.sh TABLE DATA BOOK LINES [OPTION OF uca keys..]
#
# The options are --weighting, --identical and --numeric. It needs `uca` and `psql` on the path (Debian:
# postgresql-client); PGHOST, PGDATABASE and so on name the database.
set -euo pipefail
. "$(dirname "$0")/usage.sh" 4 "$@"
table=$1 data=$2 book=$3 lines=$4
shift 4

# What is made of keys does not depend on --numeric, so `uca compact` does not take it.
of_keys=()
for option in "$@"; do
    if [ "$option" != --numeric ]; then of_keys+=("$option"); fi
done

# KEY TAB LINE. These are files and no pipe, so that nothing is loaded where `uca` rejects a line.
keyed=$(mktemp) compact=$(mktemp)
trap 'rm -f "$keyed" "$compact"' EXIT
uca keys --lines "$@" "$table" "$data" < "$lines" > "$keyed"
uca compact "${of_keys[@]}" "$book" < "$keyed" > "$compact"

# The same signs as in load_postgresql.sh. -1 makes one transaction of it.
sed -e 's/\\/\\\\/g' -e 's/\x00/\\000/g' -e 's/\t/\\t/2g' -e 's/\r/\\r/g' -e 's/^/\\\\x/' "$compact" |
    psql -q -1 -v ON_ERROR_STOP=1 \
        -c 'create table compact_words (number bigint generated always as identity, key bytea not null, word text not null)' \
        -c 'create table compact_made_by (header text not null, book text not null)' \
        -c "insert into compact_made_by values ('$(uca keys --header "$@" "$table" "$data" < /dev/null)', '$(cat "$book")')" \
        -c '\copy compact_words (key, word) from pstdin' \
        -c 'create index compact_words_key on compact_words (key, number)' -c 'analyze compact_words'
