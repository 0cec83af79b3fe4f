#!/usr/bin/env bash
# Runs `check` and `lift` with one allocation refused: with each of the first ones in turn, then with a sample of the later ones, on each graph
# of examples/ and its executable. Each run has to end with status 7, the text of status 7, and nothing on standard output; or as without a refusal,
# where the memory was not needed (a sort goes on without its buffer).
# Usage: tools/refuse_memory.sh [RUNS] (at most so many runs a graph; 200 where it is left out)
set -euo pipefail
top=$(cd "$(dirname "$0")/.." && pwd)
. "$top/tools/common.sh"
need cc python3
use_folder
"$top/foxdec" check "$top/examples/ret.elf" "$top/examples/ret.graph" >/dev/null
cc -shared -fPIC -O1 -o "$work/refuse.so" "$top/tools/refuse_memory.c" -ldl
python3 - "$top" "$work" "${1:-200}" <<'PY'
import os, pathlib, random, subprocess, sys

top, work, runs = pathlib.Path(sys.argv[1]), sys.argv[2], int(sys.argv[3])
program, examples = top / "crates/foxdec_main/out/foxdec_main", top / "examples"


def run(command, graph, **settings):
    environment = dict(os.environ, LD_PRELOAD=f"{work}/refuse.so", **settings)
    words = [program, command, graph.with_suffix(".elf")] + [graph] * (command == "check")
    return subprocess.run(words, env=environment, stdout=subprocess.PIPE, stderr=subprocess.PIPE)


random.seed(1)
faults = done = unneeded = 0
pairs = [graph for graph in sorted(examples.glob("*.graph")) if graph.with_suffix(".elf").exists()]
for command, graph in [(command, graph) for command in ("check", "lift") for graph in pairs]:
    counted = f"{work}/counted"
    plain = run(command, graph, COUNTED=counted)
    count = int(pathlib.Path(counted).read_text())
    first = list(range(1, min(count, runs // 2) + 1))
    later = range(len(first) + 1, count + 1)
    for number in first + sorted(random.sample(later, min(len(later), runs - len(first)))):
        ended = run(command, graph, REFUSED=str(number))
        done += 1
        if (ended.returncode, ended.stdout, ended.stderr) == (plain.returncode, plain.stdout, plain.stderr):
            unneeded += 1
        elif (ended.returncode, ended.stdout, ended.stderr) != (7, b"", b"foxdec: out of memory\n"):
            faults += 1
            print(f"{command} {graph.name}: allocation {number} of {count}: status {ended.returncode}, {ended.stdout!r}, {ended.stderr!r}")
print(f"{done} runs with a refused allocation, {unneeded} that did without it, {faults} others that did not end with status 7")
sys.exit(faults != 0)
PY
