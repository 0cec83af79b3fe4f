#!/bin/sh
# Records the steps anew and compares them with the stored rows. Usage: tools/record_steps.sh [--store]
set -eu
cd "$(dirname "$0")/.."
work=$(mktemp -d)
trap 'rm -r "$work"' EXIT
cc -O1 -Wall -o "$work/record_steps" tools/record_steps.c
"$work/record_steps" > "$work/rows"
if [ "${1-}" = --store ]; then
    cp "$work/rows" crates/step_replay/stdin
fi
cmp "$work/rows" crates/step_replay/stdin && echo "as recorded"
