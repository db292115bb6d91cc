#!/bin/bash
# After a tailoring, makes the keys of those texts again in which a target of the rules occurs. All other keys stay.
#
#     examples/databases/mend_postgresql.sh TABLE DATA RULES TAILORED CERTIFICATE [OPTION OF uca keys..]
#
# The table `words` is one that load_postgresql.sh made. Its keys have to be those of TABLE, DATA and the options, and `uca audit` has to
# accept the tailoring. The certificate may move no weight, since old keys would not mix with new ones. No text may have a line feed.
# Otherwise the script changes nothing and ends with status 1.
set -euo pipefail
. "$(dirname "$0")/usage.sh" 5 "$@"
table=$1 data=$2 rules=$3 tailored=$4 certificate=$5
shift 5

# With --numeric, what is read of a text decides whether it is affected.
numeric=()
for option in "$@"; do
    if [ "$option" = --numeric ]; then numeric=(--numeric); fi
done

made_by=$(uca keys --header "$@" "$table" "$data" < /dev/null)
if [ "$(psql -v ON_ERROR_STOP=1 -Atc "select obj_description('words'::regclass, 'pg_class')")" != "$made_by" ]; then
    echo 'the keys of the table were made by other files or settings' >&2
    exit 1
fi

if ! said=$(uca audit "$table" "$data" "$rules" "$tailored" "$certificate"); then
    echo "the tailoring is not accepted: $said" >&2
    exit 1
fi
if ! awk '$2 != $3 { moved = 1 } END { exit moved }' "$certificate"; then
    echo 'the certificate moves weights: make all keys again' >&2
    exit 1
fi

# The texts are read as lines.
if [ "$(psql -v ON_ERROR_STOP=1 -Atc 'select exists (select from words where strpos(word, chr(10)) > 0)')" != f ]; then
    echo 'a text has a line feed' >&2
    exit 1
fi

texts=$(mktemp) keyed=$(mktemp)
trap 'rm -f "$texts" "$keyed"' EXIT
psql -v ON_ERROR_STOP=1 -Atc 'select distinct word from words' > "$texts"
uca affected "${numeric[@]}" "$data" "$rules" < "$texts" | uca keys --lines --header "$@" "$tailored" "$data" > "$keyed"

# Another program may have changed the keys since the test above: then this is an error, and all is taken back.
still="do \$\$ begin if obj_description('words'::regclass, 'pg_class') is distinct from '$made_by' then
    raise exception 'the keys of the table were made by other files or settings'; end if; end \$\$"

# The same signs as in load_postgresql.sh. -1 makes one transaction of it.
sed -e 1d -e 's/\\/\\\\/g' -e 's/\t/\\t/2g' -e 's/\r/\\r/g' -e 's/^/\\\\x/' "$keyed" |
    psql -q -1 -v ON_ERROR_STOP=1 -c 'lock table words' -c "$still" -c 'create temporary table again (key bytea, word text)' -c '\copy again from pstdin' \
        -c 'update words set key = again.key from again where words.word = again.word' \
        -c "comment on table words is '$(head -1 "$keyed")'"
