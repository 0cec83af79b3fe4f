#!/usr/bin/env python3
"""Compares text_bench, which reads graph texts, with a second reader of docs/GRAPH_TEXT.md, tools/foxdec_graph.py, on texts
that are changed at random: both must name the same first faulty line and cause, or both read the text and write it again.

Usage: tools/compare_text.py [TEXTS] [SEED]
The program is there once `rt run` or `rt ci` has proved and built it.
"""
import collections
import pathlib
import random
import re
import subprocess
import sys

from foxdec_graph import GraphFault, read_graph

TOP = pathlib.Path(__file__).resolve().parent.parent


def due(data):
    """What the program must say of a text: its first fault, or the ending of the line about a text that is read."""
    try:
        graph = read_graph(data)
    except GraphFault as fault:
        return f"line {fault.line}: {fault.cause}"
    if graph.text().encode() != data:
        sys.exit(f"tools/foxdec_graph.py writes another text than it read:\n{data.decode()}")
    return f" {len(data)} bytes, {len(data)} in pieces"


WHOLE = """foxdec graph 1
f 400078 65536 4096
s 400078 step
p [rdi0;8] [rsp0;8]
p [rsp0-8;8] [rsp0;8]
g [rdi0;8] [rsi0;8]
v 0
c [rsp0;8]=ra
> 40007b:0 40007b:1
s 40007b call 400090
k [rsp0;8]
k [rsp0-8;8]
v 0
r rax=3*rcx0+and(rax0,0xff0000)+5 rbx=? rsp=rsp0-8 r8=sx32(-rax0+v40007b)
z 32 zx32(v400078) 10
b zx32(v400078) 0..9
b v400078+0x400090 {0x400086,0x400087}
c [rdx0|rdi0;8]=rsi0
c .[rdi0;4]=zx32(rsi0)
c ..[rdi0;2]
c .[rdi0+4;4]=0
c [rsp0;8]=ra
> 400080:0
v 1
c [rsp0;8]=ra
> 400080:0
s 400080 ret
v 0
c [rsp0;8]=ra
s 400081 end unresolved
v 0
f 400090 0 0
s 400090 outside
v 0
> 400092:0
x 400098 notcode
end
"""


def changed(rng):
    text = WHOLE
    words = re.findall(r"[0-9A-Za-z?]+|.|\n", WHOLE)
    for _ in range(rng.choice([1, 1, 1, 2])):
        what = rng.randrange(8)
        if what == 0:
            at = rng.randrange(len(text))
            text = text[:at] + text[at + 1:]
        elif what == 1:
            at = rng.randrange(len(text) + 1)
            text = text[:at] + rng.choice("0123456789abcdefvx+-*()[];|={},.:> \n?rz") + text[at:]
        elif what < 4:
            parts = re.findall(r"[0-9A-Za-z?]+|.|\n", text)
            parts[rng.randrange(len(parts))] = rng.choice(words)
            text = "".join(parts)
        else:
            lines = text.split("\n")
            a, b = rng.randrange(len(lines)), rng.randrange(len(lines))
            if what == 4:
                lines[a], lines[b] = lines[b], lines[a]
            elif what == 5:
                lines.insert(a, lines[b])
            elif what == 6:
                del lines[a]
            else:
                lines[a] = lines[b]
            text = "\n".join(lines)
    return text


def said_of(program, data):
    return subprocess.run([program], input=data, stdout=subprocess.PIPE).stdout.decode().strip()


def agrees(said, wanted):
    return said == wanted or (wanted.startswith(" ") and said.endswith(wanted))


def main():
    count = int(sys.argv[1]) if len(sys.argv) > 1 else 2000
    rng = random.Random(int(sys.argv[2]) if len(sys.argv) > 2 else 1)
    program = TOP / "crates/text_bench/out/text_bench"
    if not program.exists():
        print("tools/compare_text.py: skipped, crates/text_bench is not built")
        return 0
    causes, wrong = collections.Counter(), 0
    for _ in range(count):
        data = changed(rng).encode("latin-1")
        said, wanted = said_of(program, data), due(data)
        causes["read" if wanted.startswith(" ") else wanted.split(" ")[-1]] += 1
        if not agrees(said, wanted):
            wrong += 1
            if wrong <= 5:
                print(f"differs: {said!r} in place of {wanted!r}\n{data.decode('latin-1')}")
    print(f"{count} texts, {wrong} differ; " + ", ".join(f"{cause} {n}" for cause, n in sorted(causes.items())))
    return 1 if wrong else 0


if __name__ == "__main__":
    sys.exit(main())
