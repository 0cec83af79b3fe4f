#!/usr/bin/env bash
# Times `check` on graphs of the shape of compiled code (bench/make_real.py): so many sites in one function, twice as many, and
# as many in functions of 90 blocks. Prints sites a second, the peak memory, the time of `wc -l` on the same graph, and how much
# longer twice the sites take (near 2 where checking is linear).
# Usage: bench/check_real.sh [SITES]
set -eu
top=$(cd "$(dirname "$0")/.." && pwd)
. "$top/tools/common.sh"
need python3
sites=${1:-50000}
"$top/foxdec" check "$top/examples/ret.elf" "$top/examples/ret.graph" >/dev/null
use_folder
PYTHONDONTWRITEBYTECODE=1 python3 - "$top" "$work" "$sites" <<'PY'
import os, subprocess, sys, time

top, work, sites = sys.argv[1], sys.argv[2], int(sys.argv[3])
program = os.path.join(top, "crates/foxdec_main/out/foxdec_main")

# The least of five times, the peak memory in bytes, and what was printed.
def timed(words):
    best = peak = said = None
    for _ in range(5):
        begun = time.perf_counter()
        child = subprocess.Popen(words, stdout=subprocess.PIPE)
        said = child.stdout.read()
        _, _, usage = os.wait4(child.pid, 0)
        spent = time.perf_counter() - begun
        best = spent if best is None else min(best, spent)
        peak = usage.ru_maxrss * 1024
    return best, peak, said

times = []
for count, functions in ((sites, 1), (2 * sites, 1), (sites, max(1, sites // 1000))):
    prefix = os.path.join(work, f"{count}-{functions}")
    made = subprocess.run([os.path.join(top, "bench/make_real.py"), str(count), str(functions), "--to", prefix],
                          stdout=subprocess.PIPE, check=True, text=True).stdout
    spent, peak, said = timed([program, "check", prefix + ".elf", prefix + ".graph"])
    if said != b"valid\n":
        sys.exit(f"bench/check_real.sh: {said!r} at {made}")
    lines, _, _ = timed(["wc", "-l", prefix + ".graph"])
    times.append(spent)
    size = os.path.getsize(prefix + ".graph")
    print(f"{count} sites in {functions} functions: {spent:.3f} s, {count / spent:,.0f} sites a second, peak {peak / 2**20:.0f} MiB; "
          f"graph {size / 2**20:.1f} MiB, {size / spent / 2**20:.1f} MiB a second, `wc -l` takes {lines:.3f} s")
print(f"time for twice the sites: {times[1] / times[0]:.2f} times as long")
PY
