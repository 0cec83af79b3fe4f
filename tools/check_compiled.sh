#!/usr/bin/env bash
# Compiles the programs of tools/programs at several levels, lifts them by the reference, and checks each graph by the
# reference and, where it is built, by the program itself. Each has to be valid and full.
# Usage: tools/check_compiled.sh [FOLDER]    leaves the executables and graphs in FOLDER, where one is given
set -eu
top=$(cd "$(dirname "$0")/.." && pwd)
. "$top/tools/common.sh"
need gcc python3
use_folder
folder=${1:-$work}
mkdir -p "$folder"
program=$top/crates/foxdec_main/out/foxdec_main
export PYTHONDONTWRITEBYTECODE=1
flags="-static -nostdlib -no-pie -fno-builtin -fno-stack-protector -fcf-protection=full -mgeneral-regs-only -w"
flags="$flags -fno-asynchronous-unwind-tables"
failed=0

# Prints what was said where it is not `valid`.
want_valid() {
    local said
    said=$("$@" 2>&1) || true
    case $said in
        valid) ;;
        *) echo "${*: -2:1}: $1 says: $said"; failed=1 ;;
    esac
}

for source in "$top"/tools/programs/*.c; do
    for level in O0 O1 O2 O3 Os; do
        name=$folder/$(basename "$source" .c)-$level
        gcc -$level $flags -o "$name.elf" "$source"
        "$top/tools/reference/lift.py" "$name.elf" >"$name.graph"
        want_valid "$top/tools/reference/check.py" --full "$name.elf" "$name.graph"
        if [ -x "$program" ]; then want_valid "$program" check "$name.elf" "$name.graph"; fi
        echo "$(basename "$name"): $("$top/tools/foxdec_graph.py" "$name.graph"), $(grep -c '^s .* ret$' "$name.graph") returns" \
            "verified, $(grep -c '^s .* end ' "$name.graph") ends"
    done
done
exit "$failed"
