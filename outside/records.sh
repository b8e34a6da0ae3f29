#!/usr/bin/env bash
# outside/records.sh RECORDS
# The program that prints a file in words, held to the stored replies of the reader: it names the same
# fault at the same place, or says that the file is whole.
set -uo pipefail
cd "$(dirname "$0")/.."

records=$1
comparisons=0
differed=0

# Bytes of two hex digits as themselves; '-' is none.
bytes() {
    local hex=${1#-}
    printf '%b' "$(sed 's/../\\x&/g' <<< "$hex")"
}

# The last line and the status that are due.
due() {
    local file=${1#-} answer=$2 place=$3
    if [ "$answer" -ge 121 ] && [ "$answer" -le 125 ]; then
        printf '1 %8d  number %d:' "$place" $((answer - 100))
    else
        printf '0 %8d  the file ends here, whole' $((${#file} / 2))
    fi
}

while read -r _ file _ _ _ answer place _; do
    said=$(bytes "$file" | "$records")
    got="$? $(tail -n 1 <<< "$said")"
    comparisons=$((comparisons + 1))
    if [[ "$got" != "$(due "$file" "$answer" "$place")"* ]]; then
        differed=$((differed + 1))
        echo "DIFFERS records of $file: $got"
    fi
done < <(paste -d ' ' <(sed 's/ # .*//' crates/vectors/stdin) crates/vectors/stdout | grep '^f' | sed 's/ f / /')
echo "comparisons $comparisons, differed $differed"
[ "$differed" -eq 0 ] && [ "$comparisons" -ne 0 ]
