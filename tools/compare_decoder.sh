#!/bin/sh
# Compares the decoder with GNU objdump on the .text section of an ELF file for x86-64:
#   tools/compare_decoder.sh FILE
# Each instruction that objdump lists is looked up in what crates/decode_bench decodes at the same byte. Counts of
# equal ones, and each class of differences with an example, are printed. The status is 1 where a length or an
# operation differs, or where an instruction is decoded that objdump calls bad.
set -eu
top=$(cd "$(dirname "$0")/.." && pwd)
file=${1:?usage: tools/compare_decoder.sh FILE}
. "$top/tools/common.sh"
need objdump objcopy awk
use_driver decode_bench
use_folder
objcopy -O binary --only-section=.text "$file" "$work/code"
start=$(objdump -h "$file" | awk '$2 == ".text" { print $4; exit }')
"$driver" <"$work/code" >"$work/ours"
# The bytes alone are disassembled, so that symbols don't part an instruction.
objdump -D -w -M intel -b binary -m i386:x86-64 "$work/code" >"$work/theirs"
awk -v start="$start" -f "$top/tools/compare_decoder.awk" "$work/ours" "$work/theirs"
