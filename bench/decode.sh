#!/bin/sh
# Times the decoder on 8 MiB of code against GNU objdump on the same bytes:
#   bench/decode.sh [FILE]
# The code is the .text section of FILE (an ELF file for x86-64), again and again; without FILE that of a statically
# linked C program that is compiled here. Printed are instructions a second of each, and how many times faster the
# decoder is than objdump's whole run.
set -eu
top=$(cd "$(dirname "$0")/.." && pwd)
. "$top/tools/common.sh"
need objdump objcopy awk date
use_driver decode_bench
use_folder
use_executable "${1:-}"
objcopy -O binary --only-section=.text "$file" "$work/text"
size=$((8 * 1024 * 1024))
: >"$work/code"
while [ "$(wc -c <"$work/code")" -lt "$size" ]; do
    cat "$work/text" >>"$work/code"
done
head -c "$size" "$work/code" >"$work/eight"

# The best of three runs, in seconds: decode, then objdump.
best() {
    least=
    for run in 1 2 3; do
        from=$(date +%s.%N)
        "$@" >"$work/out"
        to=$(date +%s.%N)
        least=$(awk -v a="$from" -v b="$to" -v c="$least" 'BEGIN { t = b - a; print (c == "" || t < c) ? t : c }')
    done
    echo "$least"
}
decode() { "$driver" count <"$work/eight"; }
list() { objdump -D -b binary -m i386:x86-64 "$work/eight"; }
ours=$(best decode)
count=$(awk '{ print $1 }' "$work/out")
theirs=$(best list)
listed=$(grep -c '^ *[0-9a-f]*:	' "$work/out")
awk -v o="$ours" -v n="$count" -v t="$theirs" -v m="$listed" 'BEGIN {
    printf "decode: %d instructions in %.3f s, %.0f a second\n", n, o, n / o
    printf "objdump: %d lines in %.3f s, %.0f a second\n", m, t, m / t
    printf "ratio of the times: %.1f\n", t / o
}'
