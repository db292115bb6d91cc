#!/bin/bash
# Puts the lines of a file, with their keys, into a new table `words` of a PostgreSQL database. The table's comment keeps the header
# of the keys, which says by which files and settings they were made.
#
#     examples/databases/load_postgresql.sh TABLE DATA LINES [OPTION OF uca keys..]
#
# It needs `uca` and `psql` on the path (Debian: postgresql-client); PGHOST, PGDATABASE and so on name the database.
set -euo pipefail
. "$(dirname "$0")/usage.sh" 3 "$@"
table=$1 data=$2 lines=$3
shift 3

# The header, and then KEY TAB LINE. This is a file and no pipe, so that nothing is loaded where `uca` rejects a line.
keyed=$(mktemp)
trap 'rm -f "$keyed"' EXIT
uca keys --lines --header "$@" "$table" "$data" < "$lines" > "$keyed"

psql -q -v ON_ERROR_STOP=1 -c 'create table words (number bigint generated always as identity, key bytea not null, word text not null)'
# For `copy`, bytes are \x and hexadecimal digits, and in a text \\ is a backslash, \t a tab and \r a carriage return. \000 is U+0000, at
# which the server ends the copy with an error. By itself it would end the line, and the last line of a file would lose the rest.
sed -e 1d -e 's/\\/\\\\/g' -e 's/\x00/\\000/g' -e 's/\t/\\t/2g' -e 's/\r/\\r/g' -e 's/^/\\\\x/' "$keyed" |
    psql -q -v ON_ERROR_STOP=1 -c '\copy words (key, word) from pstdin'
psql -q -v ON_ERROR_STOP=1 -c 'create index words_key on words (key, number)' -c "comment on table words is '$(head -1 "$keyed")'" -c 'analyze words'
