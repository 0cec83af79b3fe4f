"""Small programs with their graphs, as tests and examples use them. A graph stands in one line, its lines parted by ` / `."""
from elf_files import COMPILED, base_file, with_data, words

HEAD = "foxdec graph 1 / f 400078 65536 4096 / "
RETURN = "c [rsp0;8]=ra"
PUSHED = "c [rsp0-8;8]=rbx0"
AFTER_CALL = "r rax=v400078 rcx=? rdx=? rsi=? rdi=? r8=? r9=? r10=? r11=?"
LOOP_END = "z 32 zx32(v40007b) 10 / b zx32(v40007b) 10..10"


def code(digits):
    return base_file(bytes.fromhex(digits))


def with_table(digits, *numbers):
    return base_file(bytes.fromhex(digits) + words(*numbers))


def text(line):
    return "".join(one + "\n" for one in line.split(" / "))


PROGRAMS = {
    "return": code("C3"),
    "move": code("48B8 FFFFFFFFFFFFFFFF C3"),
    "push and pop": code("53 5B C3"),
    "push without pop": code("53 C3"),
    "store": code("488937 C3"),
    "loop": code("53 31DB FFC3 83FB0A 75F9 5B C3"),
    "switch": with_table("83FF03 770B 89F8 FF24C590004000 C3 C3 C3 CCCCCCCCCCCCCC", 0x400086, 0x400087, 0x400086, 0x400088),
    "relative table": code("83FF02 7715 89FF 488D150E000000 486304BA 4801D0 3EFFE0 C3 C3 C3 CC FCFFFFFF FDFFFFFF FDFFFFFF"),
    "writable table": with_data(bytes.fromhex("83FF03 770B 89F8 FF24C5C8006000 C3 C3 C3 CCCCCCCCCCCCCC"),
                                words(0x4000be, 0x4000bf, 0x4000be, 0x4000c0)),
    "recursion": code("E8FBFFFFFF C3"),
    "system call": code("0F05 C3"),
    "call": code("E801000000 C3 F4"),
    "call of a push": code("E801000000 C3 53 5B C3"),
    "jump into an instruction": code("EBFF C0 C3"),
    "compiled": base_file(COMPILED),
    "nops": base_file(b"\x90" * 16_384 + b"\xc3"),
    "store in a cell": code("48897C24F8 897424F8 C3"),
    "two stores": code("488937 48890A C3"),
    "jump to itself": code("EBFE"),
    "lock": code("F00107"),
    "jump and stop": code("EB00 F4"),
    "shift by cl": code("31C9 D3E0 C3"),
    "exchange a byte": code("8607 C3"),
    "jump back to its table": code("B87F004000 FFE0 31C0 EBFA"),
    "switch in a loop": with_table("83FF03 770B 89F8 FF24C590004000 EBF0 C3 CCCCCCCCCCCCCC",
                                   0x400086, 0x400086, 0x400086, 0x400088),
    "dispatch loop": with_table("0FB607 83F803 7709 FF24C590004000 EBEF C3 CCCCCCCCCCCC",
                                0x400087, 0x400087, 0x400087, 0x400089),
}

GRAPHS = {name: text(HEAD + line) for name, line in {
    "return": f"s 400078 ret / v 0 / {RETURN} / end",
    "move": f"s 400078 step / v 0 / {RETURN} / > 400082:0 / s 400082 ret / v 0 / r rax=-1 / {RETURN} / end",
    "push and pop": f"s 400078 step / v 0 / {RETURN} / > 400079:0 / s 400079 step / v 0 / r rsp=rsp0-8 / {RETURN} / {PUSHED} / "
                    f"> 40007a:0 / s 40007a ret / v 0 / {RETURN} / {PUSHED} / end",
    "push without pop": f"s 400078 step / v 0 / {RETURN} / > 400079:0 / s 400079 end badreturn / v 0 / r rsp=rsp0-8 / {RETURN} / "
                        f"{PUSHED} / end",
    "store": f"s 400078 step / p [rdi0;8] [rsp0;8] / v 0 / {RETURN} / > 40007b:0 / s 40007b ret / v 0 / {RETURN} / "
             "c [rdi0;8]=rsi0 / end",
    "loop": f"s 400078 step / v 0 / {RETURN} / > 400079:0 / "
            f"s 400079 step / v 0 / r rsp=rsp0-8 / {RETURN} / {PUSHED} / > 40007b:0 / "
            f"s 40007b step / v 0 / r rbx=? rsp=rsp0-8 / {RETURN} / {PUSHED} / > 40007d:0 / "
            f"s 40007d step / v 0 / r rbx=v40007b rsp=rsp0-8 / {RETURN} / {PUSHED} / > 400080:0 / "
            f"s 400080 step / v 0 / r rbx=v40007b rsp=rsp0-8 / z 32 zx32(v40007b) 10 / {RETURN} / {PUSHED} / "
            "> 40007b:0 400082:0 / "
            f"s 400082 step / v 0 / r rbx=v40007b rsp=rsp0-8 / {LOOP_END} / {RETURN} / {PUSHED} / > 400083:0 / "
            f"s 400083 ret / v 0 / {LOOP_END} / {RETURN} / {PUSHED} / end",
    "recursion": f"s 400078 call 400078 / k [rsp0;8] / v 0 / {RETURN} / > 40007d:0 / s 40007d ret / v 0 / {AFTER_CALL} / "
                 f"{RETURN} / c [rsp0-8;8] / end",
    "system call": f"s 400078 outside / k [rsp0;8] / v 0 / {RETURN} / > 40007a:0 / s 40007a ret / v 0 / "
                   f"r rax=v400078 rcx=? r11=? / {RETURN} / end",
    "jump into an instruction": f"s 400078 step / v 0 / {RETURN} / > 400079:0 / s 400079 step / v 0 / {RETURN} / > 40007b:0 / "
                                f"s 40007b ret / v 0 / r rax=zx32(zx32(rax0)+1) / {RETURN} / end",
    "jump to itself": f"s 400078 step / v 0 / {RETURN} / > 400078:1 / v 1 / {RETURN} / > 400078:1 / end",
    "shift by cl": f"s 400078 step / v 0 / {RETURN} / > 40007a:0 / s 40007a step / v 0 / r rcx=0 / z 32 0 0 / {RETURN} / "
                   f"> 40007c:0 / s 40007c ret / v 0 / r rax=v40007a rcx=0 / {RETURN} / end",
    "exchange a byte": f"s 400078 step / p [rdi0;1] [rsp0;8] / v 0 / {RETURN} / > 40007a:0 / s 40007a ret / v 0 / "
                       f"r rax=v400078 / {RETURN} / c [rdi0;1]=zx8(rax0) / end",
    "jump back to its table": f"s 400078 step / v 0 / {RETURN} / > 40007d:0 / s 40007d end unresolved / v 0 / r rax=0x40007f / "
                              f"{RETURN} / end",
}.items()}
