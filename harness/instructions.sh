# Counts instructions of a program `lives`; bench.sh and search.sh read this. It
# needs $work, a folder.
# shellcheck shell=sh disable=SC2154

# The four octets of the input: kind, calls beside, hundreds of lives, lists.
input() {
    # shellcheck disable=SC2059
    printf "\\$(printf %o "$1")\\$(printf %o "$2")\\$(printf %o "$3")\\$(printf %o "$4")"
}

# instructions PROGRAM KIND BESIDE LISTS EVENTS: of one event, by callgrind
instructions() {
    for hundreds in 0 2; do
        input "$2" "$3" $hundreds "$4" >"$work/in"
        valgrind --tool=callgrind --callgrind-out-file=/dev/null "$1" <"$work/in" 2>&1 >/dev/null |
            sed -n 's/.*Collected : //p'
    done | awk -v events="$5" 'NR == 1 { base = $1 } NR == 2 { printf "%d", ($1 - base) / (200 * events) }'
}
