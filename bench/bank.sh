#!/usr/bin/env bash
# Times bank_bench, which steps by each of a mix of instructions again and again, over a bank that is searched from its first
# term on and over one that finds a term by its hash: prints the nanoseconds a case, how often a term is put for a case, and
# how many times as long the first takes. Before the step 16 registers, the flags and six cells are known, whose terms stand
# behind 1,000 and then behind 100,000 others in the bank.
# Usage: bench/bank.sh [STEPS]
set -eu
top=$(cd "$(dirname "$0")/.." && pwd)
. "$top/tools/common.sh"
run_timed bank_bench "${1:-2000}" <<'PY'
import os, re, subprocess, sys

program, work, steps = sys.argv[1], sys.argv[2], int(sys.argv[3])

# nop; mov rax, rbx; mov eax, 5; add rax, rcx; lea rax, [rdi+8]; mov rax, [rsp+16]; mov [rsp+16], rax; cmp rdi, 3; je; jmp;
# push rbx; pop rbx; call
mix = "90 4889d8 b805000000 4801c8 488d4708 488b442410 4889442410 4883ff03 7405 eb05 53 5b e800000000".split()
cells = ["[rsp0;8]=ra", *(f"[rsp0-{8 * k};8]=r{k + 10}0" for k in (5, 4, 3, 2)), "[rsp0-8;8]=rbp0"]
path = os.path.join(work, "graph")
with open(path, "w") as file:
    file.write("\n".join(["foxdec graph 1", "f 400078 65536 4096", "s 400078 step", "v 0", "r rsp=rsp0-40", "z 64 rax0 5",
                          *("c " + cell for cell in cells), "> 400079:0", "end", ""]))

# The least nanoseconds of three runs, the cases and how often a term was put.
def measured(bank, size):
    spent = cases = puts = None
    for _ in range(3):
        with open(path, "rb") as file:
            run = subprocess.run([program, bank, str(size), str(steps), *mix], stdin=file, capture_output=True, text=True)
        if run.returncode:
            sys.exit(f"bench/bank.sh: {bank} ended with {run.returncode}")
        cases, puts = map(int, re.fullmatch(r"(\d+) cases, (\d+) terms put\n", run.stdout).groups())
        spent = min(int(run.stderr), spent or int(run.stderr))
    return spent, cases, puts

for size in (1000, 100000):
    plain, cases, puts = measured("plain", size)
    intern, _, _ = measured("intern", size)
    print(f"{size} other terms: {plain / cases:.0f} ns a case where the bank is searched, {intern / cases:.0f} ns by hash, "
          f"{plain / intern:.2f} times as long; {puts / cases:.2f} terms put a case")
PY
