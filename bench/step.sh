#!/usr/bin/env bash
# Times step_bench, which steps by an instruction and compares its first case with the predicate wanted there, again and
# again: prints for each instruction the nanoseconds an edge, how many times as long as a copy of the predicate that takes,
# and, where valgrind is there, the allocations an edge. Before the step 16 registers, the flags and six cells are known,
# behind it the same but for what the instruction changes, so that each of them is compared; each edge holds. Then the same
# with twice and four times the cells, and with twice and three times the bounds.
# Usage: bench/step.sh [EDGES]
set -eu
top=$(cd "$(dirname "$0")/.." && pwd)
. "$top/tools/common.sh"
run_timed step_bench "${1:-200000}" <<'PY'
import os, re, shutil, subprocess, sys
from timing import timed

program, work, edges = sys.argv[1], sys.argv[2], int(sys.argv[3])

# The lines of a vertex.
def vertex(registers, bounds, cells):
    return ["v 0", "r " + registers, "z 64 rax0 5", *("b " + it for it in bounds), *("c " + it for it in cells)]

# So many cells down from the return address, with the stack pointer at the last.
def stack(count):
    return ["[rsp0;8]=ra"] + [f"[rsp0-{8 * k};8]=rbp0" for k in range(count - 1, 0, -1)]

# An instruction's bytes, and the text with what is known before it and wanted behind it.
def edge(name, count, bounds):
    cells, top, keys = stack(count), 8 * (count - 1), [f"v{k:x} 0..9" for k in range(1, bounds + 1)]
    same = f"rsp=rsp0-{top}"
    code, after = {
        "copy": ("copy", vertex(same, keys, cells)),
        "nop": ("90", vertex(same, keys, cells)),
        "mov rax, 5": ("48c7c005000000", vertex("rax=5 " + same, keys, cells)),
        "je": ("7405", vertex(same, ["rax0 5..5", *keys], cells)),
        "mov [rsp+16], rax": ("4889442410", vertex(same, keys, cells[:3] + [cells[3].replace("rbp0", "rax0")] + cells[4:])),
        "push rbx": ("53", vertex(f"rsp=rsp0-{top + 8}", keys, cells[:1] + [f"[rsp0-{top + 8};8]=rbx0"] + cells[1:])),
    }[name]
    path = os.path.join(work, "graph")
    with open(path, "w") as file:
        file.write("\n".join(["foxdec graph 1", "f 400078 65536 4096", "s 400078 step", *vertex(same, keys, cells),
                              "> 400079:0", "s 400079 ret", *after, "end", ""]))
    return code, path

# The seconds of so many edges.
def seconds(code, path, many):
    spent, _, said = timed([program, code, str(many)], path)
    if said != b"%d\n" % many:
        sys.exit(f"bench/step.sh: {said!r} at {code}")
    return spent

# The nanoseconds an edge.
def nanoseconds(name, count=6, bounds=0):
    code, path = edge(name, count, bounds)
    return (seconds(code, path, edges) - seconds(code, path, 0)) / edges * 1e9

# The allocations of so many edges.
def allocated(code, path, many):
    with open(path, "rb") as file:
        said = subprocess.run(["valgrind", program, code, str(many)], stdin=file, capture_output=True).stderr
    return int(re.search(rb"total heap usage: ([0-9,]+) allocs", said)[1].replace(b",", b""))

# The allocations an edge, as words.
def allocations(name):
    if not shutil.which("valgrind"):
        return ""
    code, path = edge(name, 6, 0)
    return f", {(allocated(code, path, 110) - allocated(code, path, 10)) / 100:.0f} allocations"

names = ["nop", "mov rax, 5", "je", "mov [rsp+16], rax", "push rbx"]
copy = nanoseconds("copy")
print(f"a copy of the predicate: {copy:.0f} ns{allocations('copy')}")
few = {name: nanoseconds(name) for name in names}
for name, spent in few.items():
    print(f"{name}: {spent:.0f} ns, {spent / copy:.2f} times a copy{allocations(name)}")
for name in names:
    more = [nanoseconds(name, 6 * k) for k in (2, 4)]
    print(f"{name} with 12 and 24 cells: {more[0] / few[name]:.2f} and {more[1] / few[name]:.2f} times as long")
few, twice, thrice = (nanoseconds("je", 6, bounds) for bounds in (5, 10, 15))
print(f"je with 10 and 15 bounds: {twice / few:.2f} and {thrice / few:.2f} times as long as with 5")
PY
