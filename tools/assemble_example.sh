#!/usr/bin/env bash
# Assembles examples/compiled.s anew and compares its bytes with those of examples/compiled.elf.
set -eu
top=$(cd "$(dirname "$0")/.." && pwd)
. "$top/tools/common.sh"
need gcc ld objcopy cmp
use_folder
headers=120
gcc -c -o "$work/compiled.o" "$top/examples/compiled.s"
ld -Ttext=0x400078 -o "$work/compiled" "$work/compiled.o"
objcopy -O binary --only-section=.text "$work/compiled" "$work/code"
tail -c +$((headers + 1)) "$top/examples/compiled.elf" | cmp - "$work/code"
echo "the bytes of examples/compiled.elf are those of examples/compiled.s"
