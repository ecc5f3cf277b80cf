#!/bin/sh
# Runs a program and the reference on generated messages, whole and damaged,
# that ask whose number is shown, and stops at the first answer that differs.
# usage: shown.sh PROGRAM SEED COUNT
set -eu

if [ $# -ne 3 ]; then
    echo "usage: shown.sh PROGRAM SEED COUNT" >&2
    exit 2
fi
exec "$(dirname "$0")/compare.sh" "$@" numbers
