"""Executables for tests and examples: an ELF-64 file header, program headers that load parts of the file, and bytes."""
import struct

BASE = 0x400000
HEADERS = 120
ENTRY = BASE + HEADERS


def file_header(entry, segments):
    fields = 2, 62, 1, entry, 64, 0, 0, 64, 56, segments, 0, 0, 0
    return b"\x7fELF\x02\x01\x01" + bytes(9) + struct.pack("<HHIQQQIHHHHHH", *fields)


def program_header(flags, offset, address, size):
    return struct.pack("<IIQQQQQQ", 1, flags, offset, address, address, size, size, 0x1000)


def base_file(code):
    """One segment that holds the whole file, readable and executable; the code comes after the headers."""
    return file_header(ENTRY, 1) + program_header(5, 0, BASE, HEADERS + len(code)) + code


def with_data(code, data):
    """Two segments: the first is code, the second is data that can be written; the code comes after the headers."""
    size = HEADERS + 56 + len(code)
    headers = program_header(5, 0, BASE, size) + program_header(6, size, BASE + 0x200000 + size, len(data))
    return file_header(BASE + HEADERS + 56, 2) + headers + code + data


def words(*numbers):
    return b"".join(number.to_bytes(8, "little") for number in numbers)


COMPILED = bytes.fromhex("""
F30F1EFA 53 4883EC10 64488B042528000000 4889442408 31DB E835000000 FFC3 83FB03 75F4 83F802 770D 89C0 FF24C5D8004000 31C0 FFC0
488B542408 64482B142528000000 7506 4883C410 5B C3 E807000000 F4 B802000000 C3 F4 CCCCCCCCCCCC
""") + words(0x4000ab, 0x4000ad, 0x4000af)
