#!/usr/bin/env bash
# Lifts real executables and checks what was printed: for each FILE the functions, the sites, the ends by reason, the seconds of
# `lift` and of `check` and the peak memory of `lift`, as lines of a table. Without FILE a C program without a library and one that
# is statically linked with the system's C library are compiled here.
# Usage: tools/lift_real.sh [FILE..]
set -eu
top=$(cd "$(dirname "$0")/.." && pwd)
. "$top/tools/common.sh"
need python3
"$top/foxdec" check "$top/examples/ret.elf" "$top/examples/ret.graph" >/dev/null
use_folder
if [ $# = 0 ]; then
    need gcc
    gcc -O1 -static -nostdlib -no-pie -fno-stack-protector -o "$work/sort" "$top/tools/programs/sort.c"
    use_executable ""
    set -- "$work/sort" "$file"
fi
python3 - "$top/crates/foxdec_main/out/foxdec_main" "$work/graph" "$@" <<'PY'
import collections, os, re, subprocess, sys, time

program, path, files = sys.argv[1], sys.argv[2], sys.argv[3:]

# What a command prints, its seconds, and its peak memory in bytes.
def run(*words):
    begun = time.perf_counter()
    child = subprocess.Popen([program, *words], stdout=subprocess.PIPE)
    said = child.stdout.read()
    _, status, usage = os.wait4(child.pid, 0)
    return said, time.perf_counter() - begun, usage.ru_maxrss * 1024, os.waitstatus_to_exitcode(status)

print("| file | functions | sites | ends | lift, s | MiB | check | check, s |\n|---|---|---|---|---|---|---|---|")
for name in files:
    graph, spent, peak, status = run("lift", name)
    if status:
        print(f"| {os.path.basename(name)} | | | status {status} | {spent:.1f} | {peak >> 20} | | |")
        continue
    with open(path, "wb") as file:
        file.write(graph)
    ends = collections.Counter(re.findall(rb"^s [0-9a-f]+ end (\w+)$", graph, re.M))
    told = ", ".join(f"{reason.decode()} {count}" for reason, count in sorted(ends.items())) or "none"
    functions, sites = (len(re.findall(line, graph, re.M)) for line in (rb"^f ", rb"^s "))
    said, checked, _, _ = run("check", name, path)
    print(f"| {os.path.basename(name)} | {functions} | {sites} | {told} | {spent:.1f} | {peak >> 20} | {said.decode().strip()} | {checked:.1f} |")
PY
