#!/usr/bin/env bash
# Times elf_bench, which reads an executable from standard input, on a file of 64 MiB against `cat` of the file to
# /dev/null, and prints the ratio of the two times and the peak memory against the length of the file. The first file
# is as a linker leaves one: a sixteenth of it, symbols and section headers, is in no segment. In the second each byte
# is loaded; there the file and its segments alone are twice the file, and the program itself comes on top.
# Usage: bench/elf.sh [MEBIBYTES]
set -eu
top=$(cd "$(dirname "$0")/.." && pwd)
. "$top/tools/common.sh"
run_timed elf_bench "${1:-64}" <<'PY'
import os, struct, subprocess, sys, time
from timing import timed

program, work, mebibytes = sys.argv[1], sys.argv[2], int(sys.argv[3])

# An executable of so many bytes, whose one segment is its first ones.
def write(size, loaded):
    path = os.path.join(work, f"{loaded}.elf")
    header = b"\x7fELF\x02\x01\x01" + bytes(9) + struct.pack(
        "<HHIQQQIHHHHHH", 2, 62, 1, 0x400078, 64, 0, 0, 64, 56, 1, 0, 0, 0)
    segment = struct.pack("<IIQQQQQQ", 1, 5, 0, 0x400000, 0x400000, loaded, loaded, 0x1000)
    with open(path, "wb") as file:
        file.write(header + segment)
        block = os.urandom(1 << 16)
        for _ in range(size >> 16):
            file.write(block)
        file.truncate(size)
    return path

# The most memory of the program itself, while it waits for the first byte.
def own(words):
    child = subprocess.Popen(words, stdin=subprocess.PIPE, stdout=subprocess.DEVNULL, stderr=subprocess.DEVNULL)
    time.sleep(0.5)
    with open(f"/proc/{child.pid}/status") as status:
        kibibytes = next(int(line.split()[1]) for line in status if line.startswith("VmHWM"))
    child.communicate()
    return kibibytes * 1024

size = mebibytes << 20
base = own([program])
for what, loaded in (("as linked", size - size // 16), ("all loaded", size)):
    path = write(size, loaded)
    spent, peak, _ = timed([program], path)
    cat = timed(["sh", "-c", "cat >/dev/null"], path)[0]
    os.remove(path)
    print(f"{mebibytes} MiB, {what}: read in {spent:.3f} s, `cat` takes {cat:.3f} s: {spent / cat:.1f} times as long; "
          f"peak memory {peak / 2**20:.1f} MiB, {peak / size:.3f} times the file, "
          f"{base / 2**20:.1f} MiB of it the program itself")
PY
