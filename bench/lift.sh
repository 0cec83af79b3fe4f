#!/usr/bin/env bash
# Times `lift` on a run of nops, on one function of so many loops, and on so many small functions that another calls, each with
# twice as many: prints the sites a second, the peak memory a site, and how much longer twice as many take (near 2 where
# lifting is linear). Then `check` says whether what was printed is valid.
# Usage: bench/lift.sh [MANY]
set -eu
top=$(cd "$(dirname "$0")/.." && pwd)
. "$top/tools/common.sh"
need python3
"$top/foxdec" check "$top/examples/ret.elf" "$top/examples/ret.graph" >/dev/null
use_folder
PYTHONDONTWRITEBYTECODE=1 PYTHONPATH=$top/bench python3 - "$top" "$work" "${1:-10000}" <<'PY'
import os, struct, subprocess, sys
from timing import timed

top, work, many = sys.argv[1], sys.argv[2], int(sys.argv[3])
program = os.path.join(top, "crates/foxdec_main/out/foxdec_main")
ENTRY = 0x400078
RET = b"\xc3"

# A run of nops.
def nops(count):
    return b"\x90" * (count - 1) + RET

# Loops one behind the other: dec eax, and back to it where it isn't zero.
def loops(count):
    return b"\xff\xc8\x75\xfc" * count + RET

# A function that calls as many others, each of which is a return.
def functions(count):
    begin = 5 * count + 1
    return b"".join(b"\xe8" + struct.pack("<i", begin + k - 5 * (k + 1)) for k in range(count)) + RET + RET * count

# An executable with this code.
def write(code):
    size = 120 + len(code)
    header = b"\x7fELF\x02\x01\x01" + bytes(9) + struct.pack("<HHIQQQIHHHHHH", 2, 62, 1, ENTRY, 64, 0, 0, 64, 56, 1, 0, 0, 0)
    path = os.path.join(work, "program")
    with open(path, "wb") as file:
        file.write(header + struct.pack("<IIQQQQQQ", 1, 5, 0, 0x400000, 0x400000, size, size, 0x1000) + code)
    return path

# The seconds that it takes to lift this code.
def lifted(name, count, code):
    path = write(code)
    spent, peak, graph = timed([program, "lift", path], os.devnull)
    sites = graph.count(b"\ns ")
    print(f"{name}, {count}: {sites} sites, {spent:.3f} s, {sites / spent:,.0f} sites a second, {peak / sites:,.0f} bytes a site")
    text = os.path.join(work, "graph")
    with open(text, "wb") as file:
        file.write(graph)
    said = subprocess.run([program, "check", path, text], stdout=subprocess.PIPE).stdout
    if said != b"valid\n":
        sys.exit(f"bench/lift.sh: {said!r} of {name}, {count}")
    return spent

for name, make, count in (("nops", nops, 10 * many), ("loops", loops, many), ("functions", functions, many)):
    once, twice = (lifted(name, n, make(n)) for n in (count, 2 * count))
    print(f"{name}: twice as many take {twice / once:.2f} times as long")
PY
