#!/usr/bin/env python3
"""Prints the table of src/encodings.rt: for each instruction the word that GNU as makes of it, and the operands that it was
given. It wants Debian's binutils-mipsel-linux-gnu; the test itself wants nothing.

    crates/acceptance_parts/vectors/encodings.py

Each line is assembled for an R3000, little-endian, without reordering or macros, and linked at address 0x1000.
"""
import pathlib
import struct
import subprocess
import tempfile

START = 0x1000
FIELDS = ["rs", "rt", "rd", "sa", "imm", "index", "code"]


def instructions():
    """(name, text of the operands, fields) of each instruction, the first in the order of the table."""
    for turn, (s, t, d, a) in enumerate([(29, 6, 11, 21), (2, 31, 16, 9)]):
        imm = [0x8005, 0x7FF6][turn]
        simm = imm - 0x10000 if imm >= 0x8000 else imm
        code = [0x5A5A5, 0xA5C3C][turn]
        index = [0x2A51234, 0x155EDCB][turn]
        for name in ["sll", "srl", "sra"]:
            yield name, f"${d}, ${t}, {a}", dict(rt=t, rd=d, sa=a)
        for name in ["sllv", "srlv", "srav"]:
            yield name, f"${d}, ${t}, ${s}", dict(rs=s, rt=t, rd=d)
        yield "jr", f"${s}", dict(rs=s)
        yield "jalr", f"${d}, ${s}", dict(rs=s, rd=d)
        yield "syscall", f"{code}", dict(code=code)
        yield "break", f"{code >> 10}, {code & 1023}", dict(code=code)
        for name in ["mfhi", "mflo"]:
            yield name, f"${d}", dict(rd=d)
        for name in ["mthi", "mtlo"]:
            yield name, f"${s}", dict(rs=s)
        for name in ["mult", "multu"]:
            yield name, f"${s}, ${t}", dict(rs=s, rt=t)
        for name in ["div", "divu"]:
            yield name, f"$0, ${s}, ${t}", dict(rs=s, rt=t)
        for name in ["add", "addu", "sub", "subu", "and", "or", "xor", "nor", "slt", "sltu"]:
            yield name, f"${d}, ${s}, ${t}", dict(rs=s, rt=t, rd=d)
        for name in ["bltz", "bgez", "bltzal", "bgezal"]:
            yield name, f"${s}, .+4+4*({simm})", dict(rs=s, imm=imm)
        for name in ["j", "jal"]:
            yield name, f"{4 * index}", dict(index=index)
        for name in ["beq", "bne"]:
            yield name, f"${s}, ${t}, .+4+4*({simm})", dict(rs=s, rt=t, imm=imm)
        for name in ["blez", "bgtz"]:
            yield name, f"${s}, .+4+4*({simm})", dict(rs=s, imm=imm)
        for name in ["addi", "addiu", "slti", "sltiu"]:
            yield name, f"${t}, ${s}, {simm}", dict(rs=s, rt=t, imm=imm)
        for name in ["andi", "ori", "xori"]:
            yield name, f"${t}, ${s}, {imm}", dict(rs=s, rt=t, imm=imm)
        yield "lui", f"${t}, {imm}", dict(rt=t, imm=imm)
        for name in ["mfc0", "mtc0"]:
            yield name, f"${t}, ${d}", dict(rt=t, rd=d)
        for name in ["tlbr", "tlbwi", "tlbwr", "tlbp", "rfe"]:
            yield name, "", {}
        for name in ["lb", "lh", "lwl", "lw", "lbu", "lhu", "lwr", "sb", "sh", "swl", "sw", "swr"]:
            yield name, f"${t}, {simm}(${s})", dict(rs=s, rt=t, imm=imm)


def assemble(lines):
    """The words of these lines."""
    with tempfile.TemporaryDirectory() as folder:
        path = pathlib.Path(folder)
        source = ".set noreorder\n.set noat\n.set nomacro\n.globl __start\n__start:\n"
        (path / "a.s").write_text(source + "\n".join(lines) + "\n")
        run = lambda *words: subprocess.run(words, check=True, cwd=path)
        run("mipsel-linux-gnu-as", "-EL", "-march=r3000", "-mabi=32", "-o", "a.o", "a.s")
        run("mipsel-linux-gnu-ld", "-EL", f"-Ttext={START:#x}", "-o", "a.elf", "a.o")
        run("mipsel-linux-gnu-objcopy", "-O", "binary", "-j", ".text", "a.elf", "a.bin")
        data = (path / "a.bin").read_bytes()
    return [word for (word,) in struct.iter_unpack("<I", data)][: len(lines)]


def main():
    listed = list(instructions())
    words = assemble([f"{name} {operands}" for name, operands, _ in listed])
    for word, (name, operands, fields) in zip(words, listed, strict=True):
        text = f"{word:08X}"
        numbers = ", ".join(str(fields.get(field, 0)) for field in FIELDS)
        print(f'    ("{name}", 0x{text[:4]}_{text[4:]}, [{numbers}]),')


main()
