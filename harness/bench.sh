#!/bin/sh
# Instructions and time for each event of a standard life of a call, and events
# a second of a long script, for the proved controller and for the reference
# implementation, in one run.
# usage: bench.sh LIVES EXCHANGE   the programs that `rt run` makes in crates/lives and crates/exchange
set -eu
export LC_ALL=C

if [ $# -ne 2 ]; then
    echo "usage: bench.sh LIVES EXCHANGE" >&2
    exit 2
fi
proved=$1
here=$(dirname "$0")
cargo build --offline --release --quiet --manifest-path "$here/Cargo.toml"
tools=$here/target/release
reference=$tools/lives
work=$(mktemp -d)
trap 'rm -rf "$work"' EXIT

# shellcheck source=harness/instructions.sh
. "$here/instructions.sh"

# nanoseconds PROGRAM KIND BESIDE RANGES EVENTS: of one event, the best of five runs
nanoseconds() {
    input "$2" "$3" 250 "$4" >"$work/in"
    for _ in 1 2 3 4 5; do
        from=$(date +%s%N)
        "$1" <"$work/in" >/dev/null
        to=$(date +%s%N)
        echo $((to - from))
    done | sort -n | awk -v events="$5" 'NR == 1 { printf "%d", $1 / (25000 * events) }'
}

row() {
    ours=$(instructions "$proved" "$2" "$3" "$4" "$5")
    theirs=$(instructions "$reference" "$2" "$3" "$4" "$5")
    fast=$(nanoseconds "$proved" "$2" "$3" "$4" "$5")
    other=$(nanoseconds "$reference" "$2" "$3" "$4" "$5")
    ratio=$(awk -v a="$ours" -v b="$theirs" 'BEGIN { printf "%.1f", a / b }')
    printf '| %s | %d | %d | %d | %d | %s | %d | %d |\n' "$1" $(($3 + 1)) "$4" "$ours" "$theirs" "$ratio" "$fast" "$other"
}

echo '| life | live calls | ranges | instructions, proved | instructions, reference | ratio | ns, proved | ns, reference |'
echo '|---|---|---|---|---|---|---|---|'
for beside in 0 15 31; do
    row "user call, 4 events" 0 $beside 1 4
    row "network call, 5 events" 1 $beside 1 5
done
for ranges in 2 4; do
    row "user call, 4 events" 0 31 $ranges 4
done

# events a second on a script of a million events, the best of three runs
speed() {
    for _ in 1 2 3; do
        from=$(date +%s%N)
        "$1" <"$work/script" >/dev/null
        to=$(date +%s%N)
        echo $((to - from))
    done | sort -n | awk 'NR == 1 { printf "%d", 1000000 / ($1 / 1e9) }'
}

"$tools/generate" 5 1000000 >"$work/script"
echo
echo '| a script of 1,000,000 events | events a second |'
echo '|---|---|'
printf '| exchange | %s |\n' "$(speed "$2")"
printf '| reference | %s |\n' "$(speed "$tools/reference")"
