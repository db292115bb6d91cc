#!/bin/bash
# After a tailoring, makes the keys of those texts again in which a target of the rules occurs. All other keys stay.
#
#     examples/databases/mend_sqlite.sh TABLE DATA RULES TAILORED CERTIFICATE DATABASE [OPTION OF uca keys..]
#
# DATABASE is one that load_sqlite.sh made. Its keys have to be those of TABLE, DATA and the options, and `uca audit` has to accept the
# tailoring. The certificate may move no weight, since old keys would not mix with new ones. No text may have a line feed or U+0000.
# Otherwise the script changes nothing and ends with status 1.
set -euo pipefail
. "$(dirname "$0")/usage.sh" 6 "$@"
table=$1 data=$2 rules=$3 tailored=$4 certificate=$5 database=$6
shift 6

# With --numeric, what is read of a text decides whether it is affected.
numeric=()
for option in "$@"; do
    if [ "$option" = --numeric ]; then numeric=(--numeric); fi
done

made_by=$(uca keys --header "$@" "$table" "$data" < /dev/null)
if [ "$(sqlite3 "$database" 'select header from made_by')" != "$made_by" ]; then
    echo 'the keys of the database were made by other files or settings' >&2
    exit 1
fi

if ! said=$(uca audit "$table" "$data" "$rules" "$tailored" "$certificate"); then
    echo "the tailoring is not accepted: $said" >&2
    exit 1
fi
if ! awk '$2 != $3 { moved = 1 } END { exit moved }' "$certificate"; then
    echo 'the certificate moves weights: make all keys again' >&2
    exit 1
fi

# The texts are read as lines.
if [ "$(sqlite3 "$database" 'select exists (select * from words where instr(word, char(10)) or instr(word, char(0)))')" != 0 ]; then
    echo 'a text has a line feed or U+0000' >&2
    exit 1
fi

texts=$(mktemp) keyed=$(mktemp)
trap 'rm -f "$texts" "$keyed"' EXIT
sqlite3 "$database" 'select distinct word from words' > "$texts"
uca affected "${numeric[@]}" "$data" "$rules" < "$texts" | uca keys --lines --header "$@" "$tailored" "$data" > "$keyed"

{
    # Another program may have changed the keys since the test above: then the check fails, and all is taken back.
    echo 'begin immediate;'
    echo 'create temporary table same (ok integer check (ok));'
    echo "insert into same select (select group_concat(header) from made_by) is '$made_by';"
    echo 'create index words_word on words (word);'
    sed -e "1!d" -e "s/.*/update made_by set header = '&';/" "$keyed"
    sed -e 1d -e "s/'/''/g" -e "s/\t/' where word = '/" -e "s/^/update words set key = x'/" -e "s/\$/';/" "$keyed"
    echo 'drop index words_word;'
    echo 'commit;'
} | sqlite3 -bail "$database"
