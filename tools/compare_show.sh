#!/bin/sh
# Compares `show` with GNU objdump over the functions of an ELF executable for x86-64:
#   tools/compare_show.sh [FILE]
# Without FILE a statically linked C program is compiled here. From the start of each function of the symbol table `show`
# goes on to the function's end or to the first address that it calls none; each instruction is looked up
# in what objdump lists, and its address, bytes, mnemonic and operands are compared. These forms count as equal: numbers of
# one residue modulo the operation's width, a place relative to rip and its address, a count of 1 that is left out, an
# exchange in either order, any nop, riz as no index, prefixes without effect, and movsxd, movabs, endbr64 and sal for movsx,
# mov, nop and shl. Printed are the counts of equal ones and each class of differences with an example, and the mnemonics
# at which `show` stopped, most frequent first. The status is 1 where an instruction differs.
set -eu
top=$(cd "$(dirname "$0")/.." && pwd)
. "$top/tools/common.sh"
need objdump nm python3
use_folder
use_executable "${1:-}"
"$top/foxdec" show "$top/examples/ret.elf" 400078 1 >/dev/null
objdump -d -w -M intel "$file" >"$work/theirs"
nm --defined-only -n -S "$file" >"$work/symbols"
python3 "$top/tools/compare_show.py" "$top/crates/foxdec_main/out/foxdec_main" "$file" "$work"
