#!/usr/bin/env bash
# Times the scans of root_scan, its kernels in lanes against plain loops of the same program: for words that are addresses,
# and for bits. The bytes are a file of 64 MiB, which comes from memory, and its first mebibyte, which stays in a cache. One
# scan is the part of many in what the many take longer than one. Printed are the gigabytes a second of each, the ratio of
# the two, and those of `wc -c`, which reads the file alone.
# Usage: bench/scan.sh [MEBIBYTES]
set -eu
top=$(cd "$(dirname "$0")/.." && pwd)
. "$top/tools/common.sh"
run_timed scan_bench "${1:-64}" <<'PY'
import os, sys
from timing import timed

program, work, mebibytes = sys.argv[1], sys.argv[2], int(sys.argv[3])
# A file of so many random bytes.
def write(size):
    path = os.path.join(work, f"{size}.bytes")
    with open(path, "wb") as file:
        for _ in range(size >> 20):
            file.write(os.urandom(1 << 20))
    return path

# The seconds of one scan of the bytes, and what two scans find.
def scan(what, path, more):
    once, found = timed([program, what, "1"], path)[0], timed([program, what, "2"], path)[2]
    return (timed([program, what, str(1 + more)], path)[0] - once) / more, found

for size, more in ((mebibytes << 20, 16), (1 << 20, 2048)):
    path = write(size)
    for lanes, plain in (("words", "plain-words"), ("bits", "plain-bits")):
        (fast, found), (slow, same) = scan(lanes, path, more), scan(plain, path, more)
        if found != same:
            sys.exit(f"{lanes} finds {found!r}, {plain} {same!r}")
        print(f"{size >> 20} MiB, {lanes}: {size / fast / 1e9:.1f} GB/s in lanes, {size / slow / 1e9:.1f} GB/s in a plain loop: "
              f"{slow / fast:.1f} times as fast")
    counted = timed(["sh", "-c", "cat | wc -c"], path)[0]
    print(f"{size >> 20} MiB, wc -c: {size / counted / 1e9:.1f} GB/s through a pipe")
PY
