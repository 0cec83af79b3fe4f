#!/usr/bin/env python3
"""Writes an executable of the shape of compiled code, and a valid graph of it, of about so many sites: functions that save
registers, store through a pointer and to the stack, branch, loop, load, call the next function, restore and return.

Usage: bench/make_real.py SITES [FUNCTIONS] [--to PREFIX]
Writes PREFIX.elf and PREFIX.graph (`real` where no prefix is given). The blocks of a function are alike: tools/reference lifts
a function of four of them, and the text and the code of the third one are written again and again, each at its addresses. So
time is linear, and no more than a function of four blocks is held.
"""
import argparse
import pathlib
import re
import struct
import sys

sys.path.insert(0, str(pathlib.Path(__file__).resolve().parent.parent / "tools" / "reference"))
from elf_files import BASE, ENTRY, HEADERS, base_file, file_header, program_header  # noqa: E402
from files import Policy  # noqa: E402
from image import read_image  # noqa: E402
from lift import lift  # noqa: E402

# push rbx; push rbp; sub rsp, 24
PROLOGUE = bytes.fromhex("53 55 4883EC18")
# mov [rdi], rsi; mov [rsp+8], rsi; test edi, edi; je (to the load); xor ebx, ebx; inc ebx; cmp ebx, 10; jne (to inc)
# mov rsi, [rsp+8]; lea rdi, [rsi+8]; call
BLOCK = bytes.fromhex("488937 4889742408 85FF 7409 31DB FFC3 83FB0A 75F9 488B742408 488D7E08 E8")
# add rsp, 24; pop rbp; pop rbx; ret
EPILOGUE = bytes.fromhex("4883C418 5D 5B C3")
RETURN = b"\xc3"
BLOCK_BYTES = len(BLOCK) + 4
BLOCK_SITES, OTHER_SITES = 11, 7
SAMPLE = 4
GRAPH_BYTES = 67_108_864


def block_code(address, callee):
    """A block that calls another function."""
    return BLOCK + struct.pack("<i", callee - address - BLOCK_BYTES)


def function_code(entry, blocks):
    """The code of a function in pieces; what it calls begins behind it."""
    end = entry + function_bytes(blocks)
    at = entry + len(PROLOGUE)
    yield PROLOGUE
    for number in range(blocks):
        yield block_code(at + number * BLOCK_BYTES, end)
    yield EPILOGUE


def function_bytes(blocks):
    return len(PROLOGUE) + blocks * BLOCK_BYTES + len(EPILOGUE)


class Template:
    """Lines of a graph whose addresses are told from where they begin, and those of the callee from its entry."""

    ADDRESS = re.compile(r"(?<=[ v])(4[0-9a-f]{5})(?![0-9a-f])")

    def __init__(self, text, base, callee):
        self.form = self.ADDRESS.sub("%x", text)
        found = [int(word, 16) for word in self.ADDRESS.findall(text)]
        self.places = [(at - (callee if at >= callee else base), at >= callee) for at in found]

    def at(self, base, callee):
        return self.form % tuple(place + (callee if is_callee else base) for place, is_callee in self.places)


class FunctionText:
    """The text of a function of so many blocks: its front, a block that comes again and again, and its end."""

    def __init__(self, blocks):
        shown = min(blocks, SAMPLE)
        code = b"".join(function_code(ENTRY, shown)) + RETURN
        image = read_image(base_file(code))
        text = lift(image, Policy(frozenset([ENTRY]))).text()
        callee = ENTRY + function_bytes(shown)
        body = text[text.index("\nf ") + 1:text.index(f"f {callee:x}")]
        self.again = blocks - shown
        starts = [ENTRY + len(PROLOGUE) + number * BLOCK_BYTES for number in range(shown)]
        cuts = [body.index(f"s {at:x} ") for at in starts[-2:]] if self.again else [len(body)] * 2
        self.front = Template(body[:cuts[0]], ENTRY, callee)
        self.block = Template(body[cuts[0]:cuts[1]], starts[-2:][0], callee)
        self.end = Template(body[cuts[1]:], starts[-1], callee)
        self.before = starts[-2:][0] - ENTRY

    def pieces(self, entry, callee):
        yield self.front.at(entry, callee)
        if self.again:
            for number in range(self.again + 1):
                yield self.block.at(entry + self.before + number * BLOCK_BYTES, callee)
            yield self.end.at(entry + self.before + (self.again + 1) * BLOCK_BYTES, callee)


def write_executable(path, blocks, functions):
    size = functions * function_bytes(blocks) + len(RETURN)
    with open(path, "wb") as file:
        file.write(file_header(ENTRY, 1) + program_header(5, 0, BASE, HEADERS + size))
        for number in range(functions):
            file.writelines(function_code(ENTRY + number * function_bytes(blocks), blocks))
        file.write(RETURN)


def write_graph(path, blocks, functions):
    """Writes the graph and answers its length."""
    text, size = FunctionText(blocks), function_bytes(blocks)
    last = ENTRY + functions * size
    with open(path, "w") as file:
        file.write("foxdec graph 1\n")
        for number in range(functions):
            entry = ENTRY + number * size
            file.writelines(text.pieces(entry, entry + size))
        file.write(f"f {last:x} 65536 4096\ns {last:x} ret\nv 0\nc [rsp0;8]=ra\nend\n")
        return file.tell()


def main():
    parser = argparse.ArgumentParser(description="Writes an executable of the shape of compiled code, and its graph.")
    parser.add_argument("sites", type=int)
    parser.add_argument("functions", type=int, nargs="?", default=1)
    parser.add_argument("--to", default="real", help="where to write: PREFIX.elf and PREFIX.graph")
    words = parser.parse_args()
    blocks = max(1, round((words.sites - 1 - OTHER_SITES * words.functions) / (BLOCK_SITES * words.functions)))
    write_executable(f"{words.to}.elf", blocks, words.functions)
    size = write_graph(f"{words.to}.graph", blocks, words.functions)
    sites = words.functions * (blocks * BLOCK_SITES + OTHER_SITES) + 1
    more = " (more than foxdec reads)" if size > GRAPH_BYTES else ""
    print(f"{sites} sites, {words.functions + 1} functions, {blocks} blocks in each but the last; graph {size / 2**20:.1f} MiB{more}")


if __name__ == "__main__":
    main()
