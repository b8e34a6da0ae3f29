#!/usr/bin/env bash
# outside/compare.sh SHARED RECORDS SEED SECONDS
# All that is compared from outside the proofs; `make outside` builds what it needs and calls it.
# Its last line says how many comparisons were made and how many differed.
set -uo pipefail
cd "$(dirname "$0")/.."

shared=$1
records=$2
seed=$3
seconds=$4
second=target/second/release/second
built=target/outside
checker="valgrind --quiet --error-exitcode=99 --leak-check=full"
said=$built/said
comparisons=0
differed=0

# Two files line by line; a line that only one of them has differs too. Lines may be millions of letters
# long: what is told of one begins a little before the first letter that differs.
lines() {
    awk '
        function column(one, other, at) {
            for (at = 1; at <= length(one) && substr(one, at, 1) == substr(other, at, 1);) at++
            return at
        }
        function told(number, got, due, from) {
            from = column(got, due) - 60
            if (from < 1) from = 1
            printf "DIFFERS line %d, from letter %d: %s in place of %s\n", number, from, substr(got, from, 100),
                substr(due, from, 100)
        }
        FILENAME == ARGV[1] { due[FNR] = $0; lines = FNR; next }
        { got = FNR }
        FNR > lines || $0 != due[FNR] {
            if (++differed <= 3) told(FNR, $0, due[FNR])
        }
        END {
            if (got < lines) differed += lines - got
            printf "comparisons %d, differed %d\n", (got > lines ? got : lines), differed
        }' "$1" "$2"
}

# Adds up the tallies in a step's output. A step that failed or compared nothing has differed.
tally() {
    local status=$1 made wrong
    read -r made wrong < <(awk '
        match($0, /(comparisons|lines) [0-9]+, differed [0-9]+$/) {
            split(substr($0, RSTART), word, /[ ,]+/)
            made += word[2]
            wrong += word[4]
        }
        END { print made + 0, wrong + 0 }' "$said")
    if [ "$wrong" -eq 0 ] && { [ "$status" -ne 0 ] || [ "$made" -eq 0 ]; }; then wrong=1; fi
    comparisons=$((comparisons + made))
    differed=$((differed + wrong))
    step_made=$((step_made + made))
    step_wrong=$((step_wrong + wrong))
    if [ "$wrong" -ne 0 ]; then head -n 20 "$said" | cut -c 1-300; fi
}

told() {
    printf '%-58s %9d compared, %d differed\n' "$1" "$step_made" "$step_wrong"
}

# One step: its name, then its command.
step() {
    local name=$1
    shift
    step_made=0
    step_wrong=0
    "$@" > "$said" 2>&1
    tally $?
    told "$name"
    grep '^NOT COMPARED' "$said"
}

stored_made_again() {
    $second vectors problems | lines crates/vectors/stdin /dev/stdin &&
        $second vectors replies | lines crates/vectors/stdout /dev/stdin
}

# The library's replies to problem lines against the due ones, beside its own looks at memory.
replies() {
    local problems=$1 due=$2
    shift 2
    "$@" < "$problems" > $built/replies
    local status=$?
    lines "$due" $built/replies && return $status
}

# Every fault of small files, against the library under a command.
small_files() {
    $second files problems > $built/problems &&
        $second files replies > $built/due &&
        replies $built/problems $built/due "$@"
}

# How many tables of a kind one round takes, so that no kind takes much of its time.
tables_of() {
    case $1 in
        full) echo 1 ;;
        crowded) echo 2 ;;
        wide | bad) echo 5 ;;
        *) echo 20 ;;
    esac
}

# One kind from one seed, against the library under a command.
fresh() {
    local kind=$1 from=$2 count=$3
    shift 3
    $second fresh problems "$kind" "$from" "$count" > $built/problems &&
        $second fresh replies "$kind" "$from" "$count" > $built/due &&
        replies $built/problems $built/due "$@"
}

# Every kind once, with few tables, where a memory checker looks on.
fresh_of_every_kind() {
    local kind
    for kind in $kinds; do
        fresh "$kind" "$seed" 1 "$@" || return
    done
}

fresh_for_a_time() {
    local end=$(($(date +%s) + seconds)) round kind
    step_made=0
    step_wrong=0
    for ((round = 0; round == 0 || $(date +%s) < end; round++)); do
        for kind in $kinds; do
            fresh "$kind" $((seed + round)) "$(tables_of "$kind")" $built/library > "$said" 2>&1
            tally $?
            if [ "$step_wrong" -ne 0 ]; then
                echo "by: second fresh problems $kind $((seed + round)) $(tables_of "$kind")"
                return
            fi
        done
    done
    fresh_rounds=$round
}

echo "seed $seed, fresh seeds for $seconds seconds (make outside SEED=$seed SECONDS=$seconds)"
kinds=$($second kinds | tr '\n' ' ')

step "the second program, brute force and itself" $second selftest "$seed" 4000
step "the second program, the document's cases" $second cases
step "the stored vectors, made again" stored_made_again
step "the library on the stored vectors" replies crates/vectors/stdin crates/vectors/stdout $built/library
step "  under the sanitizers" replies crates/vectors/stdin crates/vectors/stdout $built/sanitized/library --exact
step "the library on every fault of small files" small_files $built/library
step "  under the sanitizers" small_files $built/sanitized/library --exact
for language in c cpp; do
    step "the header's guards and lines, from $language" $built/guards_$language
    step "  under the sanitizers" $built/sanitized/guards_$language
    step "every call from $language" $built/calls_$language
    step "  under valgrind" $checker $built/calls_$language --exact
    step "  under the sanitizers" $built/sanitized/calls_$language --exact
done
step "files in words, by tools/records" bash outside/records.sh "$records"
step "the library on every kind, under valgrind" fresh_of_every_kind $checker $built/library --exact
step "the library on every kind, under the sanitizers" fresh_of_every_kind $built/sanitized/library --exact
step "dist, and what the proofs build" bash outside/dist.sh
step "dist, where there is no prover" bash outside/given.sh
step "installed: README's programs, by pkg-config alone" bash outside/installed.sh
step "the Python binding" bash outside/python.sh "$shared"
fresh_rounds=0
fresh_for_a_time
told "the library on fresh seeds of every kind, rounds: $fresh_rounds"
echo "outside: $comparisons comparisons, $differed differed"
[ "$differed" -eq 0 ]
