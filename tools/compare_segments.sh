#!/usr/bin/env bash
# Compares the entry and the segments that elf_bench reads from a statically linked executable, built here by the
# system's C compiler, with those that `readelf -hW` and `readelf -lW` print. Skipped where a tool is missing.
# Usage: tools/compare_segments.sh [EXECUTABLE ..]
set -eu
top=$(cd "$(dirname "$0")/.." && pwd)
. "$top/tools/common.sh"
need readelf python3
use_driver elf_bench
use_folder
if [ $# = 0 ]; then
    use_executable ""
    set -- "$file"
fi
python3 - "$driver" "$@" <<'PY'
import re, subprocess, sys

def printed(*words):
    return subprocess.run(words, stdout=subprocess.PIPE, check=True, text=True).stdout

# What readelf prints, in the form of elf_bench.
def expected(path):
    entry = re.search(r"Entry point address:\s+0x([0-9a-f]+)", printed("readelf", "-hW", path)).group(1)
    lines = [f"entry {entry}"]
    for line in printed("readelf", "-lW", path).splitlines():
        found = re.match(r"\s+LOAD\s+0x\S+ 0x(\S+) 0x\S+ 0x(\S+) 0x(\S+) (.{3}) ", line)
        if found:
            address, in_file, in_memory = (int(n, 16) for n in found.group(1, 2, 3))
            flags = ("x" if "E" in found.group(4) else "-") + ("w" if "W" in found.group(4) else "-")
            if in_file or in_memory:
                lines.append(f"{address:x} {in_memory:x} {in_file:x} {flags}")
    return lines

program, failed = sys.argv[1], 0
for path in sys.argv[2:]:
    with open(path, "rb") as file:
        got = subprocess.run([program], stdin=file, stdout=subprocess.PIPE, text=True).stdout.splitlines()
    wanted = expected(path)
    if got != wanted:
        print(f"{path}: elf_bench prints {got}, readelf {wanted}")
        failed += 1
    else:
        print(f"{path}: entry and {len(got) - 1} segments agree")
sys.exit(failed != 0)
PY
