#!/usr/bin/env bash
# Times `check` on a run of nops of 100,000 and of 200,000 sites, and prints the ratio of the two times
# (near 2 where checking is linear), the time of `wc -l` on the same graph, and the peak memory.
# Usage: bench/check.sh [SITES]
set -eu
top=$(cd "$(dirname "$0")/.." && pwd)
. "$top/tools/common.sh"
need python3
sites=${1:-100000}
"$top/foxdec" check "$top/examples/ret.elf" "$top/examples/ret.graph" >/dev/null
use_folder
python3 - "$top" "$work" "$sites" <<'PY'
import os, resource, struct, subprocess, sys, time

top, work, sites = sys.argv[1], sys.argv[2], int(sys.argv[3])
program = os.path.join(top, "crates/foxdec_main/out/foxdec_main")
ENTRY = 0x400078

# An ELF-64 file whose code is so many nops and a return, and its graph.
def write(count):
    code = b"\x90" * (count - 1) + b"\xc3"
    size = 120 + len(code)
    header = b"\x7fELF\x02\x01\x01" + bytes(9) + struct.pack(
        "<HHIQQQIHHHHHH", 2, 62, 1, ENTRY, 64, 0, 0, 64, 56, 1, 0, 0, 0)
    segment = struct.pack("<IIQQQQQQ", 1, 5, 0, 0x400000, 0x400000, size, size, 0x1000)
    elf, graph = os.path.join(work, f"{count}.elf"), os.path.join(work, f"{count}.graph")
    with open(elf, "wb") as f:
        f.write(header + segment + code)
    with open(graph, "w") as f:
        f.write(f"foxdec graph 1\nf {ENTRY:x} 65536 4096\n")
        for addr in range(ENTRY, ENTRY + count - 1):
            f.write(f"s {addr:x} step\nv 0\nc [rsp0;8]=ra\n> {addr + 1:x}:0\n")
        f.write(f"s {ENTRY + count - 1:x} ret\nv 0\nc [rsp0;8]=ra\nend\n")
    return elf, graph

# The least of five times, and the peak memory of all runs so far.
def timed(words):
    best = None
    for _ in range(5):
        begun = time.perf_counter()
        done = subprocess.run(words, stdout=subprocess.PIPE)
        spent = time.perf_counter() - begun
        best = spent if best is None else min(best, spent)
    return best, done

times = []
for count in (sites, 2 * sites):
    elf, graph = write(count)
    spent, done = timed([program, "check", elf, graph])
    peak = resource.getrusage(resource.RUSAGE_CHILDREN).ru_maxrss
    if done.stdout != b"valid\n":
        sys.exit(f"bench/check.sh: {done.stdout!r} at {count} sites")
    lines, _ = timed(["wc", "-l", graph])
    times.append(spent)
    print(f"{count} sites: {spent:.3f} s, {count / spent:,.0f} sites a second, peak {peak // 1024} MiB; "
          f"graph {os.path.getsize(graph) / 2**20:.1f} MiB, `wc -l` takes {lines:.3f} s, ratio {spent / lines:.0f}")
print(f"time for twice the sites: {times[1] / times[0]:.2f} times as long")
PY
