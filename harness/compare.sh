#!/bin/sh
# Runs a program and the reference on a generated script and stops at the
# first answer that differs.
# usage: compare.sh PROGRAM SEED EVENTS
#        compare.sh PROGRAM SEED COUNT forms    as forms.sh does
#        compare.sh PROGRAM SEED COUNT numbers  as shown.sh does
set -eu
export LC_ALL=C

case $#${4:-} in
3) maker=generate things=events ;;
4forms) maker=forms things="damaged forms" ;;
4numbers) maker=numbers things="messages with a calling number" ;;
*)
    echo "usage: compare.sh PROGRAM SEED EVENTS" >&2
    exit 2
    ;;
esac
manifest=$(dirname "$0")/Cargo.toml

run() {
    cargo run --offline --release --quiet --manifest-path "$manifest" --bin "$@"
}

work=$(mktemp -d)
trap 'rm -rf "$work"' EXIT
run "$maker" "$2" "$3" >"$work/script"
run reference <"$work/script" >"$work/reference"
"$1" <"$work/script" >"$work/program" || echo "program: exit status $?" >&2

if cmp -s "$work/program" "$work/reference"; then
    echo "$3 $things compared, 0 differences"
    exit 0
fi

# The number of the first answer that differs.
number=$(awk -v other="$work/program" '
    { if ((getline line < other) <= 0 || line "" != $0 "") exit }
    { same = NR }
    END { print same + 1 }' "$work/reference")
printf "%s\n" "answer $number differs"
printf "%s\n" "event:     $(grep -av '^#' "$work/script" | grep -av '^$' | sed -n "${number}p")"
printf "%s\n" "program:   $(sed -n "${number}p" "$work/program")"
printf "%s\n" "reference: $(sed -n "${number}p" "$work/reference")"
exit 1
