#!/bin/sh
# Draws the ladder of a script by mscgen.
# usage: ladder.sh PROGRAM SCRIPT >PICTURE.svg
set -eu

if [ $# -ne 2 ]; then
    echo "usage: ladder.sh PROGRAM SCRIPT >PICTURE.svg" >&2
    exit 2
fi
here=$(dirname "$0")
cargo build --offline --release --quiet --manifest-path "$here/Cargo.toml"
work=$(mktemp -d)
trap 'rm -rf "$work"' EXIT
"$1" <"$2" >"$work/answers"
"$here/target/release/trace" msc "$2" "$work/answers" >"$work/ladder.msc"
mscgen -T svg -i "$work/ladder.msc" -o "$work/ladder.svg"
# on white, also where the page is dark
awk '{ print } /^<svg/ { inside = 1 } inside && />$/ { print "<rect width=\"100%\" height=\"100%\" fill=\"white\"/>"; inside = 0 }' "$work/ladder.svg"
