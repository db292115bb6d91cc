#!/bin/bash
# Sorts a file of any number of lines, in the order of `uca sort`, byte for byte. The sorted lines go to standard output.
#
#     examples/databases/sort_parts.sh TABLE DATA LINES COUNT [OPTION OF uca keys..]
#
# The file is cut into parts of COUNT lines (at most 1,000,000). Each part is keyed and sorted alone, and goes to a file. Then the
# parts are merged. It needs `uca` on the path. TMPDIR names the folder for the parts.
set -euo pipefail
. "$(dirname "$0")/usage.sh" 4 "$@"
export TABLE=$1 DATA=$2
lines=$3 count=$4
shift 4

parts=$(mktemp -d)
trap 'rm -rf "$parts"' EXIT

# In the locale C, `sort` compares bytes. -s keeps lines of equal keys in their order, here and where the parts are merged.
export LC_ALL=C SHELL=/bin/bash OPTIONS="$*"
TAB=$(printf '\t')
export TAB
split -a 4 -l "$count" --filter='
    set -o pipefail
    uca keys --lines $OPTIONS "$TABLE" "$DATA" | sort -s -t "$TAB" -k 1,1 > "$FILE"' "$lines" "$parts/"
find "$parts" -type f -print0 | sort -z | sort -m -s -t "$TAB" -k 1,1 --files0-from=- | cut -f 2-
