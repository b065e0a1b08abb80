#!/usr/bin/env python3
"""Random programs: what the compiled code does on QEMU's RISC-V is compared with what the program does.

Run: /usr/bin/python3 tests/run_on_qemu.py crates/yongidra/out/yongidra [COUNT [SEED]]
Needs Debian's python3-unicorn. Prints one line for each program that differs, and a summary; status 1 if any did.
"""
import collections
import random
import sys
import tempfile

import generate
from compiled import compile_program
from machine import Board
from program import Run, program_bytes, program_size
from reader import refusal
from refusals import edges

STEPS = 3_000_000
TIME = 4_000


def known(word):
    """Whether the machine has an instruction with this word."""
    opcode, f3, f7 = word & 127, word >> 12 & 7, word >> 25
    if opcode in (0x37, 0x17, 0x6F):
        return True
    if opcode == 0x67:
        return f3 == 0
    if opcode == 0x63:
        return f3 in (0, 1, 4, 5, 6, 7)
    if opcode == 0x03:
        return f3 in (0, 1, 2, 4, 5)
    if opcode == 0x23:
        return f3 in (0, 1, 2)
    if opcode == 0x13:
        return f3 not in (1, 5) or f7 == 0 or (f3 == 5 and f7 == 32)
    if opcode == 0x33:
        return f7 == 0 or (f7 == 32 and f3 in (0, 5)) or (f7 == 1 and f3 in (0, 3, 5, 7))
    return False


def inputs(seed):
    """What comes in: of how much came in before, and the door."""
    def given(count, door):
        h = (count * 2654435761 + door * 40503 + seed * 97 + 12345) * 2246822519 % 2**32
        h ^= h >> 15
        return (h >> 8) % 7 if h % 3 == 0 else h
    return given


def static(functions, answer):
    """None, or what is wrong with the code before it runs."""
    if len(answer.words) > 48 * program_size(functions) + 64:
        return "more words than the bound"
    if answer.stack % 16 or answer.stack > sum(4 * (f.variables + 96) for f in functions):
        return "stack beyond the bound"
    if not all(map(known, answer.words)):
        return "a word that the machine doesn't have"
    return None


def compare(functions, answer, rng):
    """How the program comes out, and None or what differs. Two boards, with different bytes on the stack at first."""
    memory = rng.randbytes(generate.MEMORY)
    given = inputs(rng.randrange(1000))
    source = Run(functions, generate.BASE, bytearray(memory), given, TIME)
    outcome = source.outcome()
    stack_base = -(-(generate.BASE + len(memory)) // 16) * 16 + 16 * rng.randrange(1000)
    length = answer.stack + 16 * rng.randrange(3)
    boards = []
    for _ in range(2):
        board = Board(answer.words, generate.BASE, memory, stack_base, rng.randbytes(length), given)
        boards.append((board, board.run(STEPS, None if outcome == "ends" else len(source.acts) + (outcome == "stuck"))))
    for board, end in boards:
        wrong = differs(source, outcome, board, end)
        if wrong:
            return outcome, wrong
    return outcome, None


def differs(source, outcome, board, end):
    if outcome == "stuck":
        # nothing is promised after that
        return None if board.acts[:len(source.acts)] == source.acts else f"acts before it is stuck: {board.acts} and not {source.acts}"
    if board.acts != source.acts:
        pairs = list(zip(board.acts, source.acts))
        at = next((i for i, (a, b) in enumerate(pairs) if a != b), len(pairs))
        return f"{outcome}: act {at} is {board.acts[at:at + 1]} and not {source.acts[at:at + 1]} ({end}, {board.fault})"
    if board.fault:
        return f"{outcome}: {board.fault}"
    if outcome == "ends" and end != "end":
        return f"the program ends, and the machine does not ({end})"
    if outcome == "ends" and board.memory() != bytes(source.memory):
        return "memory differs"
    return None


def programs(count, seed):
    """Programs at the limits, the sluice, and random ones; each with a source of chance of its own."""
    for i, functions in enumerate(f for f in edges() if refusal(program_bytes(f)) is None):
        yield f"edge {i}", functions, random.Random(i)
    for i in range(count):
        rng = random.Random(seed * 1_000_003 + i)
        size = rng.choice([5, 20, 60, 60, 200, 200, 600, 600, 2000, 8000])
        yield f"program {i} of seed {seed}", generate.program(rng.getrandbits(32), size, rng.choice([0.0, 0.0, 0.03])), rng


def main():
    binary = sys.argv[1]
    count = int(sys.argv[2]) if len(sys.argv) > 2 else 300
    seed = int(sys.argv[3]) if len(sys.argv) > 3 else 1
    outcomes, failed = collections.Counter(), 0
    with tempfile.TemporaryDirectory() as folder:
        for name, functions, rng in programs(count, seed):
            answer = compile_program(binary, folder, program_bytes(functions))
            if answer.words is None:
                outcome, wrong = "refused", answer.message
            else:
                outcome, wrong = compare(functions, answer, rng)
                wrong = static(functions, answer) or wrong
            outcomes[outcome] += 1
            if wrong:
                failed += 1
                print(f"{name} (size {program_size(functions)}): {wrong}")
    print(f"{sum(outcomes.values())} programs:", ", ".join(f"{n} {what}" for what, n in sorted(outcomes.items())) + f"; {failed} differ")
    sys.exit(failed > 0)


if __name__ == "__main__":
    main()
