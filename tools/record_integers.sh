#!/usr/bin/env bash
# Records what this processor's integer instructions give and compares it with the rows that stand in
# crates/x86_tests/src/recorded.rt. With a word, only prints the rows. Skipped where no C compiler is, or on
# another processor than x86-64.
set -euo pipefail
cd "$(dirname "$0")/.."
if ! command -v cc >/dev/null || [ "$(uname -m)" != x86_64 ]; then
    echo "record_integers: skipped, since there is no C compiler for x86-64"
    exit 0
fi
folder=$(mktemp -d)
trap 'rm -rf "$folder"' EXIT
cc -O0 -mno-red-zone -Wall -Wextra -o "$folder/record" tools/record_integers.c
"$folder/record" >"$folder/rows"
if [ $# -gt 0 ]; then
    cat "$folder/rows"
    exit 0
fi
grep -E '^[0-9a-f]+ ' crates/x86_tests/src/recorded.rt >"$folder/kept"
grep -E '^[0-9a-f]+ ' "$folder/rows" | diff - "$folder/kept"
echo "record_integers: $(wc -l <"$folder/kept") rows, as this processor gives them"
