"""Compares what `show` prints with what objdump lists; tools/compare_show.sh makes the input and says how."""
import collections
import os
import re
import subprocess
import sys

# words before a mnemonic that change nothing that `show` prints
PREFIXES = {"bnd", "notrack", "rep", "repz", "cs", "ds", "es", "ss", "data16", "addr32"}

# what objdump calls by another name
SAME = {"movsxd": "movsx", "movabs": "mov", "endbr64": "nop", "sal": "shl"}

SIZES = {"byte": 8, "word": 16, "dword": 32, "qword": 64}
FIRST = ["ax", "cx", "dx", "bx", "sp", "bp", "si", "di"]
REGISTERS = {"al": 8, "cl": 8, "dl": 8, "bl": 8, "ah": 8, "ch": 8, "dh": 8, "bh": 8, "spl": 8, "bpl": 8, "sil": 8, "dil": 8}
for name in FIRST:
    REGISTERS.update({name: 16, "e" + name: 32, "r" + name: 64})
for number in range(8, 16):
    REGISTERS.update({f"r{number}b": 8, f"r{number}w": 16, f"r{number}d": 32, f"r{number}": 64})

SHIFTS = {"rol", "ror", "shl", "shr", "sar"}
BRANCHES = re.compile(r"call|jmp|j[a-z]+")


def number(text, base=0):
    """A number modulo 2^64; in base 16 also without 0x."""
    sign = -1 if text.startswith("-") else 1
    return sign * int(text.lstrip("+-"), base) % 2**64


def place(inner, size, fs, following):
    """A place in memory: its size, FS or not, base, index with its scale, and displacement."""
    base, index, disp = None, None, 0
    for sign, part in re.findall(r"([+-]?)([^+-]+)", inner):
        if part == "rip":
            disp += following
        elif "*" in part:
            register, scale = part.split("*")
            if register != "riz":
                index = (register, int(scale))
        elif part in REGISTERS:
            base = part
        else:
            disp += number(sign + part)
    return ("place", size, fs, base, index, disp % 2**64)


def parsed(operand, mnemonic, following, base):
    """An operand in the common form; numbers of branches have the base."""
    if operand in REGISTERS:
        return ("register", operand)
    words = operand.replace("ptr ", "").split(" ", 1)
    size = SIZES[words[0]] if words[0] in SIZES else None
    rest = words[1] if size else operand
    fs = "fs:" in rest
    plain = re.sub(r"[c-gs]s:", "", rest)
    if "[" in plain:
        return place(plain.strip("[]"), size, fs, following)
    if ":" in rest:
        return place(plain, size, fs, following)
    return ("number", number(plain, base if BRANCHES.fullmatch(mnemonic) else 0))


def common(mnemonic, operands, following, base=0):
    """A mnemonic and operands in the form that both listings share: numbers modulo the operation's width, the operands of an
    exchange in either order, a count of 1 written, none at a nop, and no size where an address is taken."""
    if mnemonic == "nop" or (mnemonic == "xchg" and operands == ["ax", "ax"]):
        return ("nop",)
    if mnemonic in SHIFTS and len(operands) == 1:
        operands = operands + ["1"]
    found = [parsed(operand, mnemonic, following, base) for operand in operands]
    widths = [REGISTERS[o[1]] if o[0] == "register" else o[1] for o in found[:1] if o[0] != "number"]
    width = widths[0] if widths and widths[0] else 64
    found = [("number", o[1] % 2**width) if o[0] == "number" else o for o in found]
    if mnemonic == "lea":
        found[1] = found[1][:1] + (None,) + found[1][2:]
    if mnemonic == "xchg":
        found.sort(key=str)
    return (mnemonic, *found)


def split(text):
    """The operands of a text, where commas stand between them alone."""
    return [part.strip() for part in text.split(",")] if text else []


def listed(path):
    """objdump's instructions: address -> (bytes, text in the common form, its own text)."""
    found = {}
    for line in open(path, errors="replace"):
        parts = line.rstrip("\n").split("\t")
        if len(parts) < 3 or not re.fullmatch(r"\s*[0-9a-f]+:", parts[0]):
            continue
        at, digits = int(parts[0].strip(" :"), 16), parts[1].replace(" ", "")
        text = re.sub(r"\s*(#.*|<.*>)", "", parts[2]).lower()
        words = text.split()
        while words and (words[0] in PREFIXES or words[0].startswith("rex")):
            words.pop(0)
        mnemonic = SAME.get(words[0], words[0]) if words else ""
        found[at] = (digits, mnemonic, split(" ".join(words[1:])), text)
    return found


def same(line, entry):
    """Whether a line of `show` says what objdump says, or what differs."""
    address, digits, text = line.split(" ", 2)
    bytes_, mnemonic, operands, _ = entry
    if digits != bytes_:
        return "length"
    following = int(address, 16) + len(digits) // 2
    ours, _, rest = text.partition(" ")
    try:
        theirs = common(mnemonic, operands, following, 16)
    except (KeyError, ValueError):
        theirs = (mnemonic, "not understood")
    if common(ours, split(rest), following) == theirs:
        return None
    return f"{ours} against {mnemonic}" if ours != mnemonic else f"operands of {ours}"


def main():
    program, file, work = sys.argv[1:]
    theirs = listed(os.path.join(work, "theirs"))
    functions = set()
    for line in open(os.path.join(work, "symbols")):
        parts = line.split()
        if len(parts) == 4 and parts[2] in "tTwW" and int(parts[1], 16):
            functions.add((int(parts[0], 16), int(parts[1], 16)))
    equal, differ, stopped, seen = 0, collections.defaultdict(list), collections.Counter(), set()
    for start, size in sorted(functions):
        if start in seen:
            continue
        count = min(size, 65536)
        done = subprocess.run([program, "show", file, f"{start:x}", str(count)], capture_output=True, text=True)
        if done.returncode:
            sys.exit(f"show ended with {done.returncode}: {done.stderr}")
        for line in done.stdout.splitlines():
            at = int(line.split(" ", 1)[0], 16)
            if at >= start + size:
                break
            seen.add(at)
            if line.split(" ")[1] == "none":
                stopped[theirs[at][1] if at in theirs else "nothing"] += 1
                break
            if at not in theirs:
                differ["objdump lists no instruction there"].append(line)
                break
            difference = same(line, theirs[at])
            if difference:
                differ[difference].append(f"{line}, where objdump has {theirs[at][3]}")
            else:
                equal += 1
    print(f"{len(functions)} functions, {equal} instructions equal in address, bytes, mnemonic and operands")
    for name, lines in sorted(differ.items(), key=lambda item: -len(item[1])):
        print(f"{len(lines)} differ: {name}, as {lines[0]}")
    print("show stopped at: " + ", ".join(f"{name} {count}" for name, count in stopped.most_common(20)))
    sys.exit(1 if differ else 0)


if __name__ == "__main__":
    main()
