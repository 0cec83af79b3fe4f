"""Instructions from bytes: the subset of docs/INSTRUCTIONS.md."""
from dataclasses import dataclass
from typing import Optional

MODULUS = 1 << 64
ARITHMETIC = ["add", "or", "adc", "sbb", "and", "sub", "xor", "cmp"]
SHIFTS = {0: "rol", 1: "ror", 4: "shl", 5: "shr", 7: "sar"}
UNARY = {2: "not", 3: "neg", 4: "mul", 5: "imul1", 6: "div", 7: "idiv"}
CONDITIONS = [cc for cc in range(16) if cc not in (10, 11)]
IDLE = (0x26, 0x2E, 0x36, 0x3E)
PREFIXES = IDLE + (0x64, 0x66, 0x67, 0xF0, 0xF2, 0xF3, 0x65)
LONGEST = 15
CL = 1


class NoSpelling(Exception):
    """The bytes spell no instruction of the subset."""


def need(holds):
    if not holds:
        raise NoSpelling


@dataclass(frozen=True)
class Reg:
    number: int


@dataclass(frozen=True)
class High:
    """AH, CH, DH or BH, by the register that holds it."""
    number: int


@dataclass(frozen=True)
class Imm:
    value: int


@dataclass(frozen=True)
class Place:
    """A memory operand: the sum of its parts."""
    base: Optional[int]
    index: Optional[int]
    scale: int
    offset: int
    fs: bool = False
    is_relative: bool = False


@dataclass(frozen=True)
class Instr:
    address: int
    length: int
    op: str
    width: int = 64
    from_width: int = 64
    cc: int = 0
    dst: object = None
    src: object = None
    factor: int = 0

    @property
    def next(self):
        return (self.address + self.length) % MODULUS


def signed(number, bits):
    number &= (1 << bits) - 1
    return number - (1 << bits) if number >> (bits - 1) else number


class Reader:
    """The bytes of one instruction, and what was read of them."""

    def __init__(self, data, address):
        self.data, self.address, self.at = data, address, 0
        self.prefixes = []
        self.rex = None
        self.allowed = []
        self.has_memory = False
        self.reg = self.rm = None

    def byte(self):
        need(self.at < min(len(self.data), LONGEST))
        self.at += 1
        return self.data[self.at - 1]

    def number(self, count):
        return int.from_bytes(bytes(self.byte() for _ in range(count)), "little")

    def signed(self, count):
        return signed(self.number(count), 8 * count)

    def bit(self, number):
        return (self.rex or 0) >> number & 1

    @property
    def wide(self):
        """The operand size of the rows whose size is free."""
        if 0x66 not in self.allowed:
            self.allowed.append(0x66)
        return 64 if self.bit(3) else 16 if 0x66 in self.prefixes else 32

    def width(self, opcode):
        """8 bits at an even opcode, else the free size."""
        return self.wide if opcode & 1 else 8

    def register(self, number, width):
        return High(number - 4) if width == 8 and self.rex is None and 4 <= number < 8 else Reg(number)

    def immediate(self, width):
        """An immediate of 8 or 16 bits, else of 32 extended by its sign."""
        return Imm(self.signed(min(width, 32) // 8) % (1 << width))

    def short(self, width):
        return Imm(self.signed(1) % (1 << width))

    def modrm(self):
        """Reads the operands' byte and what belongs to it, and answers the number in its middle."""
        code = self.byte()
        self.reg = (code >> 3 & 7) + 8 * self.bit(2)
        mode, low = code >> 6, code & 7
        if mode == 3:
            self.rm = low + 8 * self.bit(0)
        else:
            self.has_memory = True
            self.rm = self.place(mode, low)
        return code >> 3 & 7

    def place(self, mode, low):
        base, index, scale, is_relative = low + 8 * self.bit(0), None, 1, False
        no_base = mode == 0 and low == 5
        if low == 4:
            code = self.byte()
            index = (code >> 3 & 7) + 8 * self.bit(1)
            index, scale = (None, 1) if index == 4 else (index, 1 << (code >> 6))
            base = (code & 7) + 8 * self.bit(0)
            no_base = mode == 0 and code & 7 == 5
        elif no_base:
            is_relative = True
        size = 4 if no_base or mode == 2 else mode
        offset = self.signed(size) if size else 0
        return Place(None if no_base else base, index, scale, offset % MODULUS, 0x64 in self.prefixes, is_relative)

    def operand(self, width):
        return self.rm if isinstance(self.rm, Place) else self.register(self.rm, width)

    def other(self, width):
        return self.register(self.reg, width)

    def settled(self, operand):
        """A place that is told from the next instruction gets its address once the length is known."""
        if not isinstance(operand, Place) or not operand.is_relative:
            return operand
        return Place(None, None, 1, (operand.offset + self.address + self.at) % MODULUS, operand.fs)

    def made(self, op, width=64, dst=None, src=None, **more):
        self.judge_prefixes(op)
        return Instr(self.address, self.at, op, width, dst=self.settled(dst), src=self.settled(src), **more)

    def branch(self, op, size, **more):
        offset = self.signed(size)
        return self.made(op, dst=Imm((self.address + self.at + offset) % MODULUS), **more)

    def judge_prefixes(self, op):
        may_segment = self.has_memory and op not in ("lea", "nop")
        idle = sum(code in IDLE for code in self.prefixes)
        for code in set(self.prefixes) - set(IDLE):
            count = self.prefixes.count(code)
            if code == 0x64:
                need(may_segment and count == 1 and not idle)
            else:
                need(code in self.allowed and (count == 1 or (code == 0x66 and op == "nop")))


def decode(data, address):
    """The instruction that is spelled at the front of the bytes, or None."""
    if data[:4] == b"\xf3\x0f\x1e\xfa":
        return Instr(address, 4, "nop")
    reader = Reader(data, address)
    try:
        code = reader.byte()
        while code in PREFIXES:
            reader.prefixes.append(code)
            code = reader.byte()
        if code >> 4 == 4:
            reader.rex = code
            code = reader.byte()
        return two_bytes(reader, reader.byte()) if code == 0x0F else one_byte(reader, code)
    except NoSpelling:
        return None


def one_byte(r, code):
    if code < 0x40 and code & 7 < 6:
        return arithmetic(r, ARITHMETIC[code >> 3], code & 7)
    for codes, read in ONE_BYTE:
        if code in codes:
            return read(r, code)
    raise NoSpelling


def arithmetic(r, op, form):
    width = r.width(form)
    if form >= 4:
        return r.made(op, width, Reg(0), r.immediate(width))
    r.modrm()
    operands = r.operand(width), r.other(width)
    return r.made(op, width, *(operands if form < 2 else operands[::-1]))


def with_immediate(r, code):
    width = r.width(code)
    op = ARITHMETIC[r.modrm()]
    return r.made(op, width, r.operand(width), r.immediate(width) if code == 0x81 else r.short(width))


def both(op):
    """r/m, r."""
    def read(r, code):
        width = r.width(code)
        r.modrm()
        return r.made(op, width, r.operand(width), r.other(width))
    return read


def move_to_register(r, code):
    width = r.width(code)
    r.modrm()
    return r.made("mov", width, r.other(width), r.operand(width))


def test_rax(r, code):
    width = r.width(code)
    return r.made("test", width, Reg(0), r.immediate(width))


def move_immediate(r, code):
    width = r.width(code)
    need(r.modrm() == 0)
    return r.made("mov", width, r.operand(width), r.immediate(width))


def move_short(r, code):
    width = 8 if code < 0xB8 else r.wide
    return r.made("mov", width, r.register((code & 7) + 8 * r.bit(0), width), Imm(r.number(width // 8)))


def lea(r, code):
    width = r.wide
    r.modrm()
    need(r.has_memory)
    return r.made("lea", width, r.other(width), r.rm)


def move_signed(r, code):
    need(r.bit(3))
    r.modrm()
    return r.made("movsx", 64, Reg(r.reg), r.operand(32), from_width=32)


def group_f6(r, code):
    width = r.width(code)
    number = r.modrm()
    if number == 0:
        return r.made("test", width, r.operand(width), r.immediate(width))
    need(number in UNARY and (number < 4 or width > 8))
    return r.made(UNARY[number], width, r.operand(width))


def multiply(r, code):
    width = r.wide
    r.modrm()
    factor = (r.immediate if code == 0x69 else r.short)(width).value
    return r.made("imul3", width, Reg(r.reg), r.operand(width), factor=factor)


def group_fe(r, code):
    number = r.modrm()
    if number < 2:
        width = r.width(code)
        return r.made(["inc", "dec"][number], width, r.operand(width))
    need(code == 0xFF and number in (2, 4, 6))
    if number != 6:
        r.allowed.append(0xF2)
    return r.made({2: "call", 4: "jmp", 6: "push"}[number], 64, r.operand(64))


def shift(r, code):
    width = r.width(code)
    op = SHIFTS.get(r.modrm())
    need(op)
    if code >= 0xD2:
        count = Reg(CL)
    else:
        count = Imm(1 if code >= 0xD0 else r.number(1))
        need(count.value % (64 if width == 64 else 32))
    return r.made(op, width, r.operand(width), count)


def exchange_rax(r, code):
    number = (code & 7) + 8 * r.bit(0)
    if number == 0:
        r.allowed.append(0x66)
        return r.made("nop")
    return r.made("xchg", r.wide, Reg(0), Reg(number))


def sized(op):
    return lambda r, code: r.made(op, r.wide)


def stacked(op):
    return lambda r, code: r.made(op, 64, Reg((code & 7) + 8 * r.bit(0)))


def push_number(r, code):
    return r.made("push", 64, Imm(r.signed(4 if code == 0x68 else 1) % MODULUS))


def near(op, size, *prefixes):
    def read(r, code):
        r.allowed += prefixes
        return r.branch(op, size)
    return read


def conditional(r, code):
    need(code & 15 in CONDITIONS)
    return r.branch("jcc", 1, cc=code & 15)


def lone(op, *prefixes):
    def read(r, code):
        r.allowed += prefixes
        return r.made(op)
    return read


ONE_BYTE = [
    ([0x80, 0x81, 0x83], with_immediate),
    ([0x84, 0x85], both("test")),
    ([0xA8, 0xA9], test_rax),
    ([0x88, 0x89], both("mov")),
    ([0x8A, 0x8B], move_to_register),
    ([0xC6, 0xC7], move_immediate),
    (range(0xB0, 0xC0), move_short),
    ([0x8D], lea),
    ([0x63], move_signed),
    ([0xF6, 0xF7], group_f6),
    ([0x69, 0x6B], multiply),
    ([0xFE, 0xFF], group_fe),
    ([0xC0, 0xC1, 0xD0, 0xD1, 0xD2, 0xD3], shift),
    (range(0x50, 0x58), stacked("push")),
    (range(0x58, 0x60), stacked("pop")),
    ([0x68, 0x6A], push_number),
    ([0xC9], lone("leave")),
    ([0x98], sized("widen")),
    ([0x99], sized("signs")),
    ([0x86, 0x87], both("xchg")),
    (range(0x90, 0x98), exchange_rax),
    (range(0x70, 0x80), conditional),
    ([0xEB], near("jmp", 1)),
    ([0xE9], near("jmp", 4, 0xF2)),
    ([0xE8], near("call", 4, 0xF2, 0x67)),
    ([0xC3], lone("ret", 0xF2, 0xF3)),
    ([0xF4], lone("hlt")),
    ([0xCC], lone("int3")),
]


def two_bytes(r, code):
    for codes, read in TWO_BYTES:
        if code in codes:
            return read(r, code)
    raise NoSpelling


def extend(r, code):
    width, from_width = r.wide, 16 if code & 1 else 8
    r.modrm()
    return r.made("movzx" if code < 0xB8 else "movsx", width, Reg(r.reg), r.operand(from_width), from_width=from_width)


def multiply_by(r, code):
    width = r.wide
    r.modrm()
    return r.made("imul2", width, Reg(r.reg), r.operand(width))


def swap_bytes(r, code):
    return r.made("bswap", 64 if r.bit(3) else 32, Reg((code & 7) + 8 * r.bit(0)))


def move_if(r, code):
    need(code & 15 in CONDITIONS)
    width = r.wide
    r.modrm()
    return r.made("cmov", width, Reg(r.reg), r.operand(width), cc=code & 15)


def set_if(r, code):
    need(code & 15 in CONDITIONS)
    r.modrm()
    return r.made("setcc", 8, r.operand(8), cc=code & 15)


def jump_if(r, code):
    need(code & 15 in CONDITIONS)
    r.allowed.append(0xF2)
    return r.branch("jcc", 4, cc=code & 15)


def long_nop(r, code):
    need(r.modrm() == 0)
    r.allowed.append(0x66)
    return r.made("nop")


TWO_BYTES = [
    ([0xB6, 0xB7, 0xBE, 0xBF], extend),
    ([0xAF], multiply_by),
    (range(0xC8, 0xD0), swap_bytes),
    (range(0x40, 0x50), move_if),
    (range(0x90, 0xA0), set_if),
    (range(0x80, 0x90), jump_if),
    ([0x1F], long_nop),
    ([0x05], lone("syscall")),
    ([0x0B], lone("ud2")),
]
