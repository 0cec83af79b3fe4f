#!/usr/bin/env bash
# Times this checkout's program against another build of it, in one run and on the same inputs: `check` on a run of nops,
# `check` on the text of a graph whose last line is faulty, and `show` of nops. Prints the two times and their ratio (below
# 1 where this checkout is faster).
# Usage: bench/against.sh OTHER_PROGRAM [SITES]
set -eu
top=$(cd "$(dirname "$0")/.." && pwd)
. "$top/tools/common.sh"
other=${1:?the path of the other program}
sites=${2:-100000}
need python3
use_folder
"$top/foxdec" check "$top/examples/ret.elf" "$top/examples/ret.graph" >/dev/null
python3 - "$top/crates/foxdec_main/out/foxdec_main" "$other" "$work" "$sites" <<'PY'
import os, struct, subprocess, sys, time

ours, other, work, sites = *sys.argv[1:4], int(sys.argv[4])
ENTRY = 0x400078

code = b"\x90" * (sites - 1) + b"\xc3"
size = 120 + len(code)
header = b"\x7fELF\x02\x01\x01" + bytes(9) + struct.pack("<HHIQQQIHHHHHH", 2, 62, 1, ENTRY, 64, 0, 0, 64, 56, 1, 0, 0, 0)
segment = struct.pack("<IIQQQQQQ", 1, 5, 0, 0x400000, 0x400000, size, size, 0x1000)
elf, graph, faulty = (os.path.join(work, name) for name in ("nops.elf", "nops.graph", "faulty.graph"))
with open(elf, "wb") as f:
    f.write(header + segment + code)
text = [f"foxdec graph 1\nf {ENTRY:x} 65536 4096\n"]
text += [f"s {at:x} step\nv 0\nc [rsp0;8]=ra\n> {at + 1:x}:0\n" for at in range(ENTRY, ENTRY + sites - 1)]
text.append(f"s {ENTRY + sites - 1:x} ret\nv 0\nc [rsp0;8]=ra\n")
for name, last in ((graph, "end\n"), (faulty, "END\n")):
    with open(name, "w") as f:
        f.write("".join(text) + last)

def once(words):
    begun = time.perf_counter()
    subprocess.run(words, stdout=subprocess.DEVNULL, stderr=subprocess.DEVNULL)
    return time.perf_counter() - begun


for name, words in (("check, valid", ["check", elf, graph]), ("check, a faulty last line", ["check", elf, faulty]),
                    ("show", ["show", elf, f"{ENTRY:x}", "65536"])):
    pairs = [(once([ours, *words]), once([other, *words])) for _ in range(7)]
    mine, theirs = (min(times) for times in zip(*pairs))
    print(f"{name}: {mine:.3f} s, the other {theirs:.3f} s, ratio {mine / theirs:.2f}")
PY
