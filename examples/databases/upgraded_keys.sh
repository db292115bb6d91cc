#!/bin/bash
# Makes the compact keys of the rows of a table under a new edition. upgrade_sqlite.sh and upgrade_postgresql.sh call it inside of their
# transaction, in a folder of its own, with these variables:
#
#     TEXTS=.. NEW=.. NEW_DATA=.. CHANGES=.. CERTIFICATE=.. OPTIONS=.. EACH=.. upgraded_keys.sh < ROWS
#
# Standard input has a line for each row: the compact key in hexadecimal digits, a tab, and the number of the row. Where TEXTS is `texts`,
# a tab and the text follow. The file old.book has the book of these keys. It writes new.book, and last of all `changed`: a line for each
# row whose key has other bytes now, with the new key, a tab, and the number, put through the commands EACH of sed. After an error there
# is no such file.
set -euo pipefail
. "$(dirname "$0")/usage.sh" 0 "$@"
if [ -z "${EACH+set}" ]; then
    usage >&2
    exit 2
fi
export SHELL=/bin/bash LC_ALL=C

# What is made of keys does not depend on --numeric, so `uca compact` and others do not take it.
OF_KEYS=${OPTIONS//--numeric/}
export NUMERIC=
if [ "$OF_KEYS" != "$OPTIONS" ]; then NUMERIC=--numeric; fi

cat > rows
uca book "$CERTIFICATE" old.book > new.book

# The affected rows: NUMBER TAB TEXT. The digits before a text may make it affected, and then its key is made again without need.
: > affected
if [ "$TEXTS" = texts ]; then
    cut -f 2- rows | split -l 1000000 --filter='uca affected --changes $NUMERIC "$NEW_DATA" "$CHANGES"' > affected
fi
cut -f 1 affected > numbers

# Their keys are made again from the texts. All other keys are mended.
cut -f 2- affected | split -l 1000000 --filter='uca keys $OPTIONS "$NEW" "$NEW_DATA"' > whole
uca compact $OF_KEYS new.book < whole | paste - numbers > keys
awk -F '\t' -v OFS='\t' 'FILENAME == "numbers" { is_affected[$1]; next } !($2 in is_affected) { print $1, $2 }' numbers rows > others
uca expand $OF_KEYS old.book < others | uca rekey $OF_KEYS "$CERTIFICATE" | uca compact $OF_KEYS new.book >> keys

# The lines of `keys` that are no lines of the old ones.
cut -f 1,2 rows | sort > before
sort keys | comm -13 before - | sed -E "$EACH" > after
mv after changed
