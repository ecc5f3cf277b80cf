#!/bin/sh
# Runs a program on the conformance cases, or on those of a name, and writes the verdicts as TAP.
# usage: cases.sh PROGRAM [NAME ..]    as cases.sh crates/exchange/out/exchange CL-01 'SE-*'
set -eu

if [ $# -lt 1 ]; then
    echo "usage: cases.sh PROGRAM [NAME ..]" >&2
    exit 2
fi
program=$1
shift
here=$(dirname "$0")
cargo build --offline --release --quiet --manifest-path "$here/Cargo.toml"
cases=$here/target/release/cases
work=$(mktemp -d)
trap 'rm -rf "$work"' EXIT
"$cases" script "$here/cases" "$@" >"$work/script"
"$program" <"$work/script" >"$work/answers" || echo "program: exit status $?" >&2
"$cases" check "$here/cases" "$@" <"$work/answers"
