#!/bin/sh
# Times `show` over 65,536 instructions against GNU objdump over the same bytes, and prints the ratio:
#   bench/show.sh
# The code is that of a statically linked C program, each instruction that `show` knows, one after the other.
set -eu
top=$(cd "$(dirname "$0")/.." && pwd)
. "$top/tools/common.sh"
need objdump python3
"$top/foxdec" show "$top/examples/ret.elf" 400078 1 >/dev/null
use_folder
python3 - "$top/crates/foxdec_main/out/foxdec_main" "$work" <<'PY'
import os, struct, subprocess, sys, time

program, work = sys.argv[1:]
COUNT = 65536
# Common instructions of compiled code, again and again.
BLOCK = bytes.fromhex("554889e5 4883ec10 8b45fc 83c001 8945fc 488d3c8500000000 488b0425280000 00 85c0 7405 e800000000 31c0 c9 c3".replace(" ", ""))
code = BLOCK * (COUNT * 8 // len(BLOCK))
size = 120 + len(code)
header = b"\x7fELF\x02\x01\x01" + bytes(9) + struct.pack("<HHIQQQIHHHHHH", 2, 62, 1, 0x400078, 64, 0, 0, 64, 56, 1, 0, 0, 0)
segment = struct.pack("<IIQQQQQQ", 1, 5, 0, 0x400000, 0x400000, size, size, 0x1000)
path = os.path.join(work, "code.elf")
with open(path, "wb") as file:
    file.write(header + segment + code)

def timed(words):
    best = None
    for _ in range(5):
        begun = time.perf_counter()
        done = subprocess.run(words, capture_output=True)
        spent = time.perf_counter() - begun
        best = spent if best is None else min(best, spent)
    return best, done.stdout

ours, listing = timed([program, "show", path, "400078", str(COUNT)])
lines = listing.splitlines()
end = int(lines[-1].split()[0], 16)
raw = os.path.join(work, "raw")
with open(raw, "wb") as file:
    file.write(code[:end - 0x400078])
theirs, _ = timed(["objdump", "-D", "-b", "binary", "-m", "i386:x86-64", "-M", "intel", raw])
print(f"{len(lines)} instructions: show {ours:.3f} s, objdump {theirs:.3f} s, ratio {theirs / ours:.1f}")
PY
