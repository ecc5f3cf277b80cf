#!/bin/sh
# What the search for the lowest free pair costs, before a change and after it:
# instructions for each event of calls that end at once (SETUP, RELEASE COMPLETE),
# for two programs `lives` and for the reference implementation, in one run.
# usage: search.sh BEFORE AFTER   two programs that `rt run` made in crates/lives
set -eu
export LC_ALL=C

if [ $# -ne 2 ]; then
    echo "usage: search.sh BEFORE AFTER" >&2
    exit 2
fi
here=$(dirname "$0")
cargo build --offline --release --quiet --manifest-path "$here/Cargo.toml"
work=$(mktemp -d)
trap 'rm -rf "$work"' EXIT
# shellcheck source=harness/instructions.sh
. "$here/instructions.sh"

row() {
    before=$(instructions "$before_program" 2 "$2" "$3" 2)
    after=$(instructions "$after_program" 2 "$2" "$3" 2)
    reference=$(instructions "$here/target/release/lives" 2 "$2" "$3" 2)
    awk -v name="$1" -v b="$before" -v a="$after" -v r="$reference" \
        'BEGIN { printf "| %s | %d | %d | %.2f | %d |\n", name, b, a, a / b, r }'
}

before_program=$1
after_program=$2
echo '| table | before | after | after to before | reference |'
echo '|---|---|---|---|---|'
row "31 calls in four ranges of 8 channels" 31 4
row "31 calls in one range of 32 channels" 31 1
row "16 calls in four ranges of 4 channels: all taken" 16 3
row "28 calls and 8 permanent pairs in four ranges of 9 channels: all taken" 28 5
row "2 calls in one range of 2 channels: all taken" 2 0
row "no call, one range of 32 channels" 0 1
