#!/usr/bin/env bash
# Times a program that makes, adds and compares 10,000,000 terms, and prints the nanoseconds a term: the
# least of three runs. The program is there once `rt run` or `rt ci` has proved and built it.
# Usage: bench/terms.sh [TERMS]
set -eu
top=$(cd "$(dirname "$0")/.." && pwd)
program=$top/crates/sym_terms_bench/out/sym_terms_bench
[ -x "$program" ] || { echo "bench/terms.sh: skipped, crates/sym_terms_bench is not built"; exit 0; }
terms=${1:-10000000}
best=
for _ in 1 2 3; do
    begun=$(date +%s%N)
    "$program" "$terms" >/dev/null
    spent=$(($(date +%s%N) - begun))
    if [ -z "$best" ] || [ "$spent" -lt "$best" ]; then best=$spent; fi
done
echo "$((best / terms)) ns a term"
