#!/usr/bin/env python3
"""Writes the example executables beside this script.

Each is the smallest kind that FoxDec takes: an ELF-64 file header, one program
header that loads the whole file, and the code. Each line below is one field, in
the order of the ELF-64 specification.
"""
import pathlib
import struct

HEADERS = 64 + 56
ADDRESS = 0x400000

EXAMPLES = {
    "ret.elf": "C3",                         # ret
    "move.elf": "48B8 FFFFFFFFFFFFFFFF C3",  # mov rax, -1; ret
    "push.elf": "53 5B C3",                  # push rbx; pop rbx; ret
    # push rbx; xor ebx, ebx; inc ebx; cmp ebx, 10; jne (back to inc); pop rbx; ret
    "loop.elf": "53 31DB FFC3 83FB0A 75F9 5B C3",
    "call.elf": "E801000000 C3 53 5B C3",    # call to the push; ret; push rbx; pop rbx; ret
    "store.elf": "488937 C3",                # mov [rdi], rsi; ret
    "stores.elf": "488937 48890A C3",        # mov [rdi], rsi; mov [rdx], rcx; ret
    # cmp edi, 3; ja (to the last ret); mov eax, edi; jmp [rax*8+400090]; ret; ret; ret; and the table of the jump
    "switch.elf": """
        83FF03 770B 89F8 FF24C590004000 C3 C3 C3 CCCCCCCCCCCCCC
        8600400000000000 8700400000000000 8600400000000000 8800400000000000""",
    # compiled.s, and at its end the table of the switch: three addresses
    "compiled.elf": """
        F30F1EFA 53 4883EC10 64488B042528000000 4889442408 31DB E835000000 FFC3 83FB03 75F4 83F802 770D 89C0 FF24C5D8004000
        31C0 FFC0 488B542408 64482B142528000000 7506 4883C410 5B C3 E807000000 F4 B802000000 C3 F4 CCCCCCCCCCCC
        AB00400000000000 AD00400000000000 AF00400000000000""",
}


def half(n):
    return struct.pack("<H", n)


def word(n):
    return struct.pack("<I", n)


def xword(n):
    return struct.pack("<Q", n)


FILE_HEADER = b"".join([
    b"\x7fELF",                  # e_ident: magic number
    bytes([2, 1, 1]),            # 64-bit, little endian, version 1
    bytes(9),                    # padding
    half(2),                     # e_type: executable
    half(62),                    # e_machine: x86-64
    word(1),                     # e_version
    xword(ADDRESS + HEADERS),    # e_entry: the code's first byte
    xword(64),                   # e_phoff
    xword(0),                    # e_shoff
    word(0),                     # e_flags
    half(64),                    # e_ehsize
    half(56),                    # e_phentsize
    half(1),                     # e_phnum
    half(0), half(0), half(0),   # no section headers
])


def program_header(size):
    return b"".join([
        word(1),                 # p_type: load
        word(5),                 # p_flags: read and execute
        xword(0),                # p_offset
        xword(ADDRESS),          # p_vaddr
        xword(ADDRESS),          # p_paddr
        xword(size),             # p_filesz
        xword(size),             # p_memsz
        xword(0x1000),           # p_align
    ])


def write(name, file):
    pathlib.Path(__file__).with_name(name).write_bytes(file)


def executable(code):
    return FILE_HEADER + program_header(HEADERS + len(code)) + code


for name, digits in EXAMPLES.items():
    write(name, executable(bytes.fromhex(digits)))

# ret.elf, spoilt in one place each: what is refused, and by which name.
ret = executable(bytes.fromhex(EXAMPLES["ret.elf"]))
write("refused_short.elf", ret[:63])                                # TooShort
write("refused_segment.elf", ret[:96] + xword(122) + ret[104:])     # SegmentOutside: p_filesz
write("refused_shared.elf", ret[:16] + half(3) + ret[18:])          # NotExec: e_type
