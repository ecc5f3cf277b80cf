#!/bin/sh
# Tries wrong programs of harness/wrong again: the prover must refuse each. All of them take more than an hour.
# usage: wrong.sh [NAME ..]    a crate, or CRATE/NAME; none: all
set -eu
export LC_ALL=C

here=$(cd "$(dirname "$0")" && pwd)
root=$(dirname "$here")
cargo build --offline --release --quiet --manifest-path "$here/Cargo.toml"
wrong=$here/target/release/wrong
work=$(mktemp -d)
trap 'rm -rf "$work"' EXIT
trap 'exit 1' HUP INT TERM

# a copy of the repository; its checks begin with what checks on this machine kept
tar -C "$root" --exclude='crates/*/out' -cf - crates crates.txt harness/wrong | tar -xf - -C "$work"

# first: the first function that the prover does not prove, or else the first place where it stops, with what it says
first() {
    sed -n -e '/^fn [^ ]*: no\(t proved\| proof\)/p' "$work/said" | head -n 1 | cut -c 1-200 | grep . ||
        sed -n -e 's|^\./||' -e '/^[^ ]*:[0-9]*:[0-9]*: error/p' "$work/said" | head -n 1 | cut -c 1-200
}

# unread: where the prover cannot read the changed text, so that no contract was tried
unread() {
    sed -n 's|^\./||; /^\(src\|specs\)\/[^ ]*:[0-9]*:[0-9]*: error: /p' "$work/said" | awk '
        { said = $0; sub(/^[^ ]*: error: /, "", said) }
        said !~ /^`[^`]*`: / || said ~ /is not in scope|has no field|is no name|operand is missing|expected the end|cannot continue/' |
        head -n 1
}

refused=0
failed=0
"$wrong" list "$work" "$@" >"$work/names"
while read -r name; do
    crate=${name%/*}
    "$wrong" apply "$work" "$name"
    began=$(date +%s)
    status=0
    (cd "$work/crates/$crate" && rt check) >"$work/said" 2>&1 </dev/null || status=$?
    took=$(($(date +%s) - began))
    if [ "$status" -eq 1 ] && grep -q '^logic=not-proved' "$work/said" && [ -z "$(unread)" ]; then
        echo "$name: refused ($took s): $(first)"
        refused=$((refused + 1))
    else
        echo "$name: NOT REFUSED BY THE PROVER (exit $status); the last lines:"
        unread
        tail -n 5 "$work/said"
        failed=$((failed + 1))
    fi
    for part in src specs proofs; do
        rm -rf "$work/crates/$crate/$part"
        if [ -d "$root/crates/$crate/$part" ]; then cp -R "$root/crates/$crate/$part" "$work/crates/$crate"; fi
    done
done <"$work/names"
echo "$refused refused, $failed not"
[ "$failed" -eq 0 ]
