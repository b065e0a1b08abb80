#!/usr/bin/env python3
"""Would a wrong compiler be noticed? Each change below is made to every word that it fits, in the code of each program,
and run_on_qemu's comparison has to find a difference in at least one program.

Run: /usr/bin/python3 tests/sensitivity.py crates/yongidra/out/yongidra [COUNT [SEED]]
Prints in how many programs each change was there, and in how many it was noticed; status 1 if one never was.
"""
import sys
import tempfile

from compiled import Answer, compile_program
from program import program_bytes
from run_on_qemu import compare, programs

F3, F7 = 7 << 12, 127 << 25


def register(f3, f7, to_f3, to_f7):
    """An instruction of two registers in place of another."""
    def change(w):
        if w & 0x7F == 0x33 and w & F3 == f3 << 12 and w & F7 == f7 << 25:
            return w & ~F3 & ~F7 | to_f3 << 12 | to_f7 << 25
        return w
    return change


def third(opcode, f3, to):
    """Another funct3 under the same opcode."""
    return lambda w: w & ~F3 | to << 12 if w & 0x7F == opcode and w & F3 == f3 << 12 else w


def operands(opcode):
    """The two registers that are read, the other way round."""
    return lambda w: w & ~(1023 << 15) | (w >> 15 & 31) << 20 | (w >> 20 & 31) << 15 if w & 0x7F == opcode else w


CHANGES = {
    "less is signed": register(3, 0, 2, 0),
    "less signed is not signed": register(2, 0, 3, 0),
    "shift signed is not signed": register(5, 32, 5, 0),
    "shift right is signed": register(5, 0, 5, 32),
    "high product is signed": register(3, 1, 1, 1),
    "division is signed": register(5, 1, 4, 1),
    "rest is signed": register(7, 1, 6, 1),
    "sum for difference": register(0, 32, 0, 0),
    "or for and": register(7, 0, 6, 0),
    "or for exclusive or": register(4, 0, 6, 0),
    "shift left for right": register(5, 0, 1, 0),
    "loads of a byte are signed": third(0x03, 4, 0),
    "loads of two bytes are signed": third(0x03, 5, 1),
    "stores of a byte are of two": third(0x23, 0, 1),
    "stores of two bytes are of one": third(0x23, 1, 0),
    "branches the other way": lambda w: w ^ 1 << 12 if w & 0x7F == 0x63 else w,
    "operands the other way round": operands(0x33),
    "small numbers one more": lambda w: (w + (1 << 20)) % 2**32 if w & 0x707F == 0x13 and w >> 7 & 31 == 5 else w,
    "upper parts one more": lambda w: (w + (1 << 12)) % 2**32 if w & 0x7F == 0x37 and w >> 7 & 31 == 5 else w,
    "doors one further": lambda w: w + (4 << 7) if w & 0x707F == 0x2023 and w >> 15 & 31 == 6 and w >> 7 & 31 < 28 else w,
}


def main():
    binary = sys.argv[1]
    count = int(sys.argv[2]) if len(sys.argv) > 2 else 20
    seed = int(sys.argv[3]) if len(sys.argv) > 3 else 1
    there, noticed = dict.fromkeys(CHANGES, 0), dict.fromkeys(CHANGES, 0)
    with tempfile.TemporaryDirectory() as folder:
        for name, functions, rng in programs(count, seed):
            if name.startswith("edge"):
                continue
            answer = compile_program(binary, folder, program_bytes(functions))
            state = rng.getstate()
            for what, change in CHANGES.items():
                words = [change(w) for w in answer.words]
                if words == answer.words:
                    continue
                there[what] += 1
                rng.setstate(state)
                noticed[what] += compare(functions, Answer(words, answer.stack, ""), rng)[1] is not None
    for what in CHANGES:
        print(f"{what}: in {there[what]} programs, noticed in {noticed[what]}")
    sys.exit(any(n == 0 for n in noticed.values()))


if __name__ == "__main__":
    main()
