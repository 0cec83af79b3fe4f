#!/usr/bin/env bash
# Runs the gate (or `rt ci` with the words given) and tells how many processor minutes it took of each crate, most first:
# proofs, edits, builds and tests. What an earlier run on this machine passed costs nothing here: `tools/gate_minutes.sh --anew`
# proves all from nothing. The gate's own output goes to standard error; it ends with the gate's status.
set -u
cd "$(dirname "$0")/.." || exit 1
command -v python3 >/dev/null || { echo "gate_minutes: no python3, so nothing is measured" >&2; exec rt ci "$@"; }
exec python3 - "$@" <<'PYTHON'
import collections
import os
import re
import subprocess
import sys
import time

TICKS = os.sysconf('SC_CLK_TCK')


def descendants(root):
    """The processes that stand under one, with their command lines and processor seconds."""
    children, told = collections.defaultdict(list), {}
    for name in os.listdir('/proc'):
        if not name.isdigit():
            continue
        try:
            fields = open(f'/proc/{name}/stat').read().rsplit(')', 1)[1].split()
            words = open(f'/proc/{name}/cmdline').read().replace('\0', ' ')
        except OSError:
            continue
        children[int(fields[1])].append(int(name))
        told[int(name)] = (words, (int(fields[11]) + int(fields[12])) / TICKS)
    waiting, found = [root], {}
    while waiting:
        for pid in children[waiting.pop()]:
            waiting.append(pid)
            if pid in told:
                found[pid] = told[pid]
    return found


def crate_of(words):
    """The crate that a process works for."""
    match = re.search(r'--crate-name (\w+)', words) or re.search(r'/crates/(\w+)/out/', words)
    return match[1] if match else None


seen = {}
gate = subprocess.Popen(['rt', 'ci', *sys.argv[1:]], stdout=sys.stderr)
while gate.poll() is None:
    for pid, (words, seconds) in descendants(gate.pid).items():
        crate = crate_of(words)
        if crate:
            seen[pid, crate] = max(seconds, seen.get((pid, crate), 0))
    time.sleep(0.3)
spent = collections.Counter()
for (_, crate), seconds in seen.items():
    spent[crate] += seconds / 60
for crate, minutes in spent.most_common():
    print(f'{minutes:7.2f} {crate}')
print(f'{sum(spent.values()):7.2f} in all')
sys.exit(gate.returncode)
PYTHON
