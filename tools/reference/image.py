"""An executable as its loaded segments (ELF-64)."""
import struct
from dataclasses import dataclass
from typing import List

from files import FILE_BYTES

MODULUS = 1 << 64
HEADER = struct.Struct("<16sHHIQQQIHHHHHH")
ENTRY = struct.Struct("<IIQQQQQQ")


class FileFault(Exception):
    """The first refusal that applies, by its name and number."""

    def __init__(self, name, number):
        super().__init__(f"executable refused: {name} ({number})")


def need(holds, name, number):
    if not holds:
        raise FileFault(name, number)


@dataclass
class Segment:
    low: int
    size: int
    data: bytes
    executable: bool
    writable: bool

    def holds(self, address, count):
        return self.low <= address and address + count <= self.low + self.size


@dataclass
class Image:
    entry: int
    segments: List[Segment]

    def fixed(self, address, count):
        """The number in bytes that never change: one segment holds them that is not writable or is executable."""
        for it in self.segments:
            if it.holds(address, count) and (it.executable or not it.writable):
                found = it.data[address - it.low:][:count]
                return int.from_bytes(found + bytes(count - len(found)), "little")
        return None

    def code_at(self, address):
        """At most 15 bytes of the executable segment's file part from an address on."""
        for it in self.segments:
            if it.executable and it.low <= address < it.low + len(it.data):
                return it.data[address - it.low:address - it.low + 15]
        return b""

    def is_code(self, address):
        return bool(self.code_at(address))

    def covers(self, address, count):
        return any(it.holds(address, count) for it in self.segments)


def loaded_entries(data, first, count):
    """The entries of type PT_LOAD that load something."""
    found = [ENTRY.unpack_from(data, first + ENTRY.size * number) for number in range(count)]
    return [it for it in found if it[0] == 1 and (it[5] or it[6])]


def read_image(data):
    """The image of a file; FileFault where it is refused."""
    need(len(data) <= FILE_BYTES, "TooLong", 16)
    need(len(data) >= 64, "TooShort", 1)
    ident, kind, machine, _, start, first, _, _, _, entry_size, count, _, _, _ = HEADER.unpack_from(data)
    need(ident[:4] == b"\x7fELF", "BadMagic", 2)
    need(ident[4] == 2, "NotClass64", 3)
    need(ident[5] == 1, "NotLittle", 4)
    need(ident[6] == 1, "BadVersion", 5)
    need(kind == 2, "NotExec", 6)
    need(machine == 62, "NotX8664", 7)
    need(entry_size == 56, "BadEntrySize", 8)
    need(first + 56 * count <= len(data), "TableOutside", 9)
    need(count <= 64, "TooManyHeaders", 10)
    found = loaded_entries(data, first, count)
    need(found, "NoLoad", 11)
    need(all(offset + in_file <= len(data) for _, _, offset, _, _, in_file, _, _ in found), "SegmentOutside", 12)
    need(all(low + size < MODULUS for _, _, _, low, _, _, size, _ in found), "SegmentWraps", 13)
    need(all(in_file <= size for _, _, _, _, _, in_file, size, _ in found), "FileOverMemory", 14)
    need(all(one[3] + one[6] <= other[3] for one, other in zip(found, found[1:])), "SegmentsUnordered", 15)
    return Image(start, [Segment(low, size, data[offset:offset + in_file], bool(flags & 1), bool(flags & 2))
                         for _, flags, offset, low, _, in_file, size, _ in found])
