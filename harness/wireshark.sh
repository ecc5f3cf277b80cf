#!/bin/sh
# Opens the capture of a script's trace with tshark and compares what it reads in each message with what we read: direction, type,
# flag, reference and cause. Where tshark is not installed it says so, and only gives the script back from the capture.
# usage: wireshark.sh PROGRAM SCRIPT         every message
#        wireshark.sh PROGRAM SCRIPT sent    those that the program sends, where the script holds damaged ones
set -eu
export LC_ALL=C

case $#${3:-} in
2) part=. ;;
3sent) part='^out ' ;;
*)
    echo "usage: wireshark.sh PROGRAM SCRIPT [sent]" >&2
    exit 2
    ;;
esac
here=$(dirname "$0")
cargo build --offline --release --quiet --manifest-path "$here/Cargo.toml"
trace=$here/target/release/trace
work=$(mktemp -d)
trap 'rm -rf "$work"' EXIT

"$1" <"$2" >"$work/answers"
"$trace" capture "$2" "$work/answers" >"$work/trace.pcapng"
"$trace" names "$2" "$work/answers" | grep "$part" >"$work/ours"

# the events that the capture gives back, and those of the script that are no bad lines
events='^(start|message|tick|connect|clear|offer|restart|putback|save|reload) '
"$trace" script "$work/trace.pcapng" | grep -v '^#' >"$work/back" || true
grep -av -e '^#' -e '^$' "$2" | paste -d'|' - "$work/answers" | grep -aE "$events" | grep -av '|bad line$' | sed 's/|[^|]*$//' >"$work/events"
cmp "$work/events" "$work/back"

if ! command -v tshark >/dev/null; then
    echo "tshark is not installed: no capture of $(basename "$2") is opened"
    exit 0
fi
tshark -r "$work/trace.pcapng" -T fields -e frame.packet_flags_direction -e _ws.col.Info -e q2931.call_ref_flag -e q2931.call_ref \
    -e q2931.cause.value >"$work/fields" 2>"$work/errors" || { cat "$work/errors"; exit 1; }
awk -F '\t' '
    function number(digits,  n, i) {
        n = 0
        for (i = 1; i <= length(digits); i++) n = n * 16 + index("0123456789abcdef", substr(digits, i, 1)) - 1
        return n
    }
    {
        way = $1 ~ /1$/ ? "in" : "out"
        sub(/\[Malformed Packet\]$/, "", $2)
        print way, $2, $3, number($4), $5 == "" ? "-" : number(substr($5, 3))
    }' "$work/fields" | grep "$part" >"$work/theirs" || true
diff "$work/ours" "$work/theirs" >"$work/differ" || { head -n 20 "$work/differ"; exit 1; }
echo "$(wc -l <"$work/ours") messages of $(basename "$2"): tshark reads the names, references and causes that we read"
