#!/bin/sh
# Runs a program and the reference on a script of damaged saved forms and stops
# at the first answer that differs.
# usage: forms.sh PROGRAM SEED COUNT
set -eu

if [ $# -ne 3 ]; then
    echo "usage: forms.sh PROGRAM SEED COUNT" >&2
    exit 2
fi
exec "$(dirname "$0")/compare.sh" "$@" forms
