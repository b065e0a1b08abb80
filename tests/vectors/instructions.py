#!/usr/bin/env python3
"""Words of instructions made by GNU as and read by GNU objdump, for the program crates/riscv_vectors.

Writes that program's stdin (a word in a line) and the stdout that is expected of it (the instruction, with the
immediate as the raw field, or `none`). Nothing of this repository takes part in making them.

Needs Debian's binutils-riscv64-unknown-elf. Run: python3 tests/vectors/instructions.py
"""
import pathlib
import random
import re
import struct
import subprocess
import tempfile

HERE = pathlib.Path(__file__).resolve().parent
CRATE = HERE.parent.parent / "crates" / "riscv_vectors"
PREFIX = "riscv64-unknown-elf-"

REGISTERS = "add sub sll slt sltu xor srl sra or and mul mulhu divu remu".split()
IMMEDIATES = "addi slti sltiu xori ori andi".split()
SHIFTS = "slli srli srai".split()
LOADS = "lb lh lw lbu lhu".split()
STORES = "sb sh sw".split()
BRANCHES = "beq bne blt bge bltu bgeu".split()

SMALL = [0, 1, 5, 2047, -2048, -1, 1365, -1366]
REGS = [(0, 0, 0), (31, 31, 31), (1, 2, 4), (8, 16, 31), (10, 21, 0), (31, 0, 16)]


def ours():
    """Pairs of a line for the assembler and the text that is expected."""
    for name in REGISTERS:
        for d, s, t in REGS:
            yield f"{name} x{d}, x{s}, x{t}", f"{name} {d} {s} {t}"
    for name in IMMEDIATES:
        for (d, s, _), n in zip(REGS + REGS, SMALL):
            yield f"{name} x{d}, x{s}, {n}", f"{name} {d} {s} {n % 4096}"
    for name in SHIFTS:
        for (d, s, _), n in zip(REGS, [0, 1, 31, 16, 15, 21]):
            yield f"{name} x{d}, x{s}, {n}", f"{name} {d} {s} {n}"
    for name in LOADS:
        for (d, s, _), n in zip(REGS + REGS, SMALL):
            yield f"{name} x{d}, {n}(x{s})", f"{name} {d} {s} {n % 4096}"
    for name in STORES:
        for (t, s, _), n in zip(REGS + REGS, SMALL + [31, 32, -32, -33]):
            yield f"{name} x{t}, {n}(x{s})", f"{name} {t} {s} {n % 4096}"
    for name in BRANCHES:
        for (s, t, _), n in zip(REGS + REGS, [0, 2, 4, 30, 32, 2046, 2048, 4094, -4096, -2, -2048, 1366]):
            yield f"{name} x{s}, x{t}, .+{n}", f"{name} {s} {t} {n % 8192}"
    for n in [0, 2, 2046, 2048, 4096, 1048574, -1048576, -2, -4096, 699050, -699050, 1046528, 2096]:
        for d in (0, 1, 31):
            yield f"jal x{d}, .+{n}", f"jal {d} {n % 2097152}"
    for (d, s, _), n in zip(REGS + REGS, SMALL):
        yield f"jalr x{d}, {n}(x{s})", f"jalr {d} {s} {n % 4096}"
    for name in ("lui", "auipc"):
        for d, n in [(0, 0), (1, 1), (31, 0xFFFFF), (16, 0x80000), (5, 0x7FFFF), (21, 0xAAAAA)]:
            yield f"{name} x{d}, {n}", f"{name} {d} {n}"


# instructions of other machines and extensions: this machine has none of them
OTHERS = {
    "rv32imafd": """mulh x1, x2, x3
mulhsu x4, x5, x6
div x7, x8, x9
rem x10, x11, x12
fence
fence.i
fence rw, w
ecall
ebreak
mret
wfi
csrrw x1, mstatus, x2
csrrs x0, cycle, x0
csrrwi x3, mscratch, 5
lr.w x1, (x2)
sc.w x3, x4, (x5)
amoadd.w x6, x7, (x8)
flw f1, 8(x2)
fsw f1, 8(x2)
fadd.s f1, f2, f3
fmadd.s f1, f2, f3, f4
fcvt.w.s x1, f2
fld f1, 16(x2)""",
    "rv64im": """ld x1, 8(x2)
sd x1, 8(x2)
lwu x1, 8(x2)
addiw x1, x2, 3
slliw x1, x2, 3
sraiw x1, x2, 3
addw x1, x2, x3
subw x1, x2, x3
mulw x1, x2, x3
divuw x1, x2, x3
slli x1, x2, 63
srli x1, x2, 32
srai x1, x2, 63""",
}


def assemble(lines, arch):
    with tempfile.TemporaryDirectory() as folder:
        folder = pathlib.Path(folder)
        abi = "lp64" if arch.startswith("rv64") else "ilp32"
        (folder / "a.s").write_text(".option norelax\n.option norvc\n" + "\n".join(lines) + "\n")
        subprocess.run([PREFIX + "as", f"-march={arch}_zicsr_zifencei", f"-mabi={abi}", "-o", folder / "a.o", folder / "a.s"], check=True)
        subprocess.run([PREFIX + "objcopy", "-O", "binary", "-j", ".text", folder / "a.o", folder / "a.bin"], check=True)
        raw = (folder / "a.bin").read_bytes()
    words = [w for (w,) in struct.iter_unpack("<I", raw)]
    assert len(words) == len(lines), "a line became more than a word"
    return words


def disassemble(words):
    """objdump's line for each word."""
    with tempfile.TemporaryDirectory() as folder:
        path = pathlib.Path(folder) / "a.bin"
        path.write_bytes(b"".join(struct.pack("<I", w) for w in words))
        out = subprocess.run(
            [PREFIX + "objdump", "-D", "-b", "binary", "-m", "riscv:rv32", "-M", "no-aliases,numeric", path],
            check=True, capture_output=True, text=True).stdout
    lines = {}
    for line in out.splitlines():
        m = re.match(r"\s*([0-9a-f]+):\s+([0-9a-f]{8})\s+(.*)$", line)
        if m:
            lines[int(m[1], 16)] = m[3].replace("\t", " ").split("#")[0].split("<")[0].strip()
    return [lines.get(4 * i, "unknown") for i in range(len(words))]


def number(text):
    return int(text, 0)


def expected(pc, line):
    """The text that is expected for what objdump shows, `none` for what this machine has not."""
    name, _, rest = line.partition(" ")
    args = [a for a in re.split(r"[,() ]+", rest) if a]
    regs = [number(a[1:]) if re.fullmatch(r"x\d+", a) else a for a in args]
    if name in REGISTERS:
        return f"{name} {regs[0]} {regs[1]} {regs[2]}"
    if name in IMMEDIATES:
        return f"{name} {regs[0]} {regs[1]} {number(args[2]) % 4096}"
    if name in SHIFTS:
        # objdump also shows shifts by 32 and more, which only machines of 64 bits have
        return f"{name} {regs[0]} {regs[1]} {number(args[2])}" if number(args[2]) < 32 else "none"
    if name in LOADS or name in STORES or name == "jalr":
        return f"{name} {regs[0]} {regs[2]} {number(args[1]) % 4096}"
    if name in BRANCHES:
        return f"{name} {regs[0]} {regs[1]} {(number(args[2]) - pc) % 2**32 % 8192}"
    if name == "jal":
        return f"jal {regs[0]} {(number(args[1]) - pc) % 2**32 % 2097152}"
    if name in ("lui", "auipc"):
        return f"{name} {regs[0]} {number(args[1])}"
    return "none"


def random_words(count):
    """Any words of 32 bits, most of them with an opcode of ours and a likely funct7."""
    rng = random.Random(20240607)
    opcodes = [0x37, 0x17, 0x6F, 0x67, 0x63, 0x03, 0x23, 0x13, 0x33]
    for _ in range(count):
        w = rng.getrandbits(32) | 3
        if w & 0x1F == 0x1F:
            w ^= 4  # else it begins an instruction of more than 32 bits, and takes the next word with it
        if rng.random() < 0.9:
            opcode = rng.choice(opcodes)
            w = w & ~0x7F | opcode
            if opcode in (0x13, 0x33) and rng.random() < 0.8:
                w = w & ~(0x7F << 25) | rng.choice([0, 0, 32, 1, 2, 33, 64]) << 25
        yield w


def main():
    rows = []
    pairs = list(ours())
    rows += list(zip(assemble([a for a, _ in pairs], "rv32im"), [b for _, b in pairs]))
    for arch, lines in OTHERS.items():
        rows += [(w, "none") for w in assemble(lines.splitlines(), arch)]
    words = list(random_words(600))
    rows += [(w, expected(4 * i, line)) for i, (w, line) in enumerate(zip(words, disassemble(words)))]
    # a word of 32 bits ends in 11; other endings are of shorter instructions
    rows += [(w, "none") for w in (0, 0x13 - 3, 0x33 - 1, 0xFFFFFFFF, 0x4501, 0x8082)]
    CRATE.mkdir(exist_ok=True)
    (CRATE / "stdin").write_text("".join(f"{w:08x}\n" for w, _ in rows))
    (CRATE / "stdout").write_text("".join(f"{w:08x} {text}\n" for w, text in rows))
    print(len(rows), "words,", sum(text == "none" for _, text in rows), "of them none")


if __name__ == "__main__":
    main()
