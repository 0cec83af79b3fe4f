#!/usr/bin/env bash
# Times text_bench, which reads a graph's text and writes the graph again, on texts of 8 and of 16 MiB: prints the ratio
# of the two times (near 2 where reading and writing are linear), the megabytes a second against `wc -l` on the same
# file, and the peak memory. The texts have every kind of line: functions of some thirty sites with calls, bounds, flag
# facts, pairs, forests of two levels and terms of several pieces.
# Usage: bench/text.sh [MEBIBYTES]
set -eu
top=$(cd "$(dirname "$0")/.." && pwd)
. "$top/tools/common.sh"
run_timed text_bench "${1:-8}" <<'PY'
import os, sys
from timing import timed

program, work, mebibytes = sys.argv[1], sys.argv[2], int(sys.argv[3])

# The lines of one function of 30 sites at an address.
def function(entry):
    lines = [f"f {entry:x} 65536 4096"]
    for k in range(30):
        addr = entry + 4 * k
        following = f"> {addr + 4:x}:0"
        registers = f"r rax=v{addr:x}+{k + 1} rbx=? rsp=rsp0-8 rdi=zx32(rdi0)"
        cells = ["c [rsp0;8]=ra", f"c .[rsp0;4]=zx32(v{addr:x})", "c [rdi0;8]=rsi0", "c [rsp0-8;8]=rbx0"]
        if k % 5 == 0:
            lines += [f"s {addr:x} call {entry:x}", "k [rsp0;8]", "k [rsp0-8;8]", "v 0", registers, *cells, following]
        elif k % 5 == 1:
            lines += [f"s {addr:x} step", "p [rdi0;8] [rsp0;8]", "v 0", "r rax=-3*rcx0+and(rax0,0xff0000)",
                      f"z 32 zx32(v{addr:x}) 10", f"b zx32(v{addr:x}) 0..9",
                      f"b v{addr:x}+0x400090 {{0x400086,0x400087,0x400088}}", *cells, f"> {addr + 4:x}:0 {addr + 8:x}:0"]
        else:
            lines += [f"s {addr:x} step", "v 0", registers, *cells, following]
    lines += [f"s {entry + 120:x} ret", "v 0", "c [rsp0;8]=ra", f"s {entry + 121:x} end stop", "v 0", "c [rsp0;8]=ra"]
    return "\n".join(lines) + "\n"

# A text of at least so many bytes.
def write(size):
    path = os.path.join(work, f"{size}.graph")
    with open(path, "w") as file:
        file.write("foxdec graph 1\n")
        entry = 0x400078
        while file.tell() < size:
            file.write(function(entry))
            entry += 256
        file.write("end\n")
    return path

times = []
for size in (mebibytes << 20, mebibytes << 21):
    path = write(size)
    length = os.path.getsize(path)
    spent, peak, said = timed([program], path)
    if not said.endswith(b" %d bytes, %d in pieces\n" % (length, length)):
        sys.exit(f"bench/text.sh: {said!r} on a text of {length} bytes")
    lines, _, _ = timed(["wc", "-l"], path)
    times.append(spent)
    print(f"{length / 2**20:.1f} MiB read and written in {spent:.3f} s, {length / spent / 2**20:.0f} MiB a second; "
          f"`wc -l` {length / lines / 2**20:.0f} MiB a second; peak memory {peak / 2**20:.0f} MiB, "
          f"{peak / length:.1f} times the text")
print(f"time for twice the text: {times[1] / times[0]:.2f} times as long")
PY
