# How many comparisons a script made, and how many differed; for the scripts beside it.
comparisons=0
differed=0

# holds WHAT COMMAND..: one comparison, by whether the command succeeds.
holds() {
    local what=$1 said
    shift
    comparisons=$((comparisons + 1))
    if ! said=$("$@" 2>&1); then
        differed=$((differed + 1))
        printf 'DIFFERS %s\n%s\n' "$what" "$said" | head -n 12
    fi
}

# same WHAT GOT DUE
same() {
    holds "$1: '$2' in place of '$3'" test "$2" = "$3"
}

# The script's last line and exit status.
told() {
    echo "comparisons $comparisons, differed $differed"
    [ "$differed" -eq 0 ]
}
