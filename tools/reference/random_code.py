"""Code at random: instructions of the subset, more of those that meet, jumps and calls that stay near, and switches."""
import struct

from decode import decode

ENTRY = 0x400078
LONGEST = 15
BODY_BYTES = 96
TABLE = ENTRY + BODY_BYTES
ENTRIES = 4

# Openings of instructions that compiled code has much of; what follows them is random.
OPENINGS = [bytes.fromhex(digits) for digits in """
89 8B 01 29 31 21 09 39 85 83 81 C7 48 4889 488B 4801 4829 488D 4883 4831 4885 4839 50 53 55 57 58 5B 5D 5F C9 98 4898 99
0FB6 0FB7 0FBE 480FBE 4863 8A 88 86 87 90 4887 C1 48C1 D1 48D1 D3 F7 48F7 F6 0FAF 480FAF 6B 69 FF FE 0F44 0F45 0F94 74 75 77
72 73 76 EB E8 C3 0F05 6689 668B 660F 64488B 0FC8 480FC8 80 C6 84 3C 04 24 A8 B0 B8 48B8 68 6A FFE0 FF24C5 FF20 41 49 4D 44
""".split()]
FRONTS = [b"", b"", b"\x53", b"\x55\x48\x89\xe5", b"\x48\x83\xec\x18", b"\x89\xf8", b"\x83\xff\x03\x77\x05"]
ENDS = [b"\xc3", b"\xc3", b"\xf4", b"\xeb\xfe", b"\x5b\xc3", b""]


def one_instruction(chance):
    """The bytes of an instruction that has a spelling."""
    while True:
        rest = bytes(chance.choice([0, 1, 3, 4, 8, 16, 0x24, 0x44, 0x7C, 0xC0, 0xC7, 0xF8, 0xFF, chance.randrange(256)])
                     for _ in range(LONGEST))
        data = chance.choice(OPENINGS) + rest
        found = decode(data[:LONGEST], ENTRY)
        if found is not None:
            return data[:found.length]


def near_branch(chance):
    """A jump or a call that mostly stays in the code."""
    code, form = chance.choice([(b"\xeb", "<b"), (b"\x74", "<b"), (b"\x75", "<b"), (b"\x72", "<b"), (b"\x77", "<b"),
                                (b"\x0f\x84", "<i"), (b"\xe9", "<i"), (b"\xe8", "<i"), (b"\xe8", "<i")])
    return code + struct.pack(form, chance.randrange(-24, 32))


def switch(chance):
    """A comparison, a jump over the next two, and a jump by the table, or by an entry that was loaded before."""
    jump = chance.choice([b"\xff\x24\xc5", b"\x48\x8b\x04\xc5"]) + struct.pack("<I", TABLE)
    jump += b"\xff\xe0" if jump[0] == 0x48 else b""
    compare = chance.choice([b"\x83\xff", b"\x83\xf8"]) + bytes([chance.choice([1, 3, 3, 4])])
    return compare + bytes([0x77, 2 + len(jump)]) + b"\x89\xf8" + jump


def one_part(chance):
    kind = chance.random()
    return near_branch(chance) if kind < 0.15 else switch(chance) if kind < 0.22 else one_instruction(chance)


def random_code(chance):
    """A function of some instructions, mostly with a return behind it, and the table of its switches."""
    code = chance.choice(FRONTS) + b"".join(one_part(chance) for _ in range(chance.randrange(1, 9))) + chance.choice(ENDS)
    code += bytes(chance.choice([0xC3, 0x90, 0xCC]) for _ in range(max(BODY_BYTES - len(code), 0)))
    entries = [ENTRY + chance.randrange(min(len(code), 32)) for _ in range(ENTRIES)]
    return code[:BODY_BYTES] + struct.pack(f"<{ENTRIES}Q", *entries)
