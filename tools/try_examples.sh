#!/usr/bin/env bash
# Runs each command of the table in examples/README.md, and each line behind `$ ` in the `console` blocks of README.md, docs/
# and examples/, and compares what it prints, and in the table also its status, with what stands there.
set -u
cd "$(dirname "$0")/.." || exit 1
export PYTHONDONTWRITEBYTECODE=1
ran=0
failed=0

# Runs a command, which must print this; a status that is empty may be any.
try() {
    local command=$1 output=$2 status=$3 got code
    got=$(bash -c "$command" 2>&1)
    code=$?
    ran=$((ran + 1))
    if [ "$got" != "$output" ] || [ "$code" != "${status:-$code}" ]; then
        echo "$command: printed '$got' with status $code, not '$output'${status:+ with status $status}"
        failed=$((failed + 1))
    fi
}

# The cell of a table without its blanks and backquotes.
cell() {
    sed 's/^ *//; s/ *$//; s/^`\(.*\)`$/\1/' <<<"$1"
}

try_table() {
    local command output status
    while IFS='|' read -r _ command output status _; do
        try "$(cell "$command")" "$(cell "$output")" "$(cell "$status")"
    done < <(grep -F '| `./foxdec ' "$1")
}

# A command's output goes on to the next command or to the end of the block.
try_blocks() {
    local line inside="" command="" output=""
    while IFS= read -r line; do
        case $inside:$line in
            :'```console') inside=yes ;;
            yes:'$ '* | yes:'```')
                if [ -n "$command" ]; then try "$command" "${output%$'\n'}" ""; fi
                command=${line#'$ '} output=
                if [ "$line" = '```' ]; then inside="" command=""; fi
                ;;
            yes:*) output+=$line$'\n' ;;
        esac
    done <"$1"
}

# So that what is said while the program is built is in no output.
./foxdec show examples/ret.elf 400078 1 >/dev/null || exit 1
try_table examples/README.md
for page in README.md docs/*.md examples/README.md; do try_blocks "$page"; done
echo "$ran examples, $failed differ"
[ "$failed" = 0 ]
