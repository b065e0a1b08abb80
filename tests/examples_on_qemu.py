#!/usr/bin/env python3
"""The examples, compiled and run on QEMU's RISC-V: their acts are compared with those worked out by hand.

Run: /usr/bin/python3 tests/examples_on_qemu.py crates/yongidra/out/yongidra
Needs Debian's python3-unicorn. Status 1 if any differs.
"""
import pathlib
import sys
import tempfile

from compiled import compile_program
from machine import Board

BASE = 8192  # where memory begins, and where mean_level expects it
EXAMPLES = pathlib.Path(__file__).parent.parent / "examples"


def come(door, v):
    return ("in", door, v)


def go(door, v):
    return ("out", door, v)


def levels(*values):
    """What comes in, one after the other, through whichever door."""
    return lambda count, door: values[count] if count < len(values) else 0


MEAN = [3, 1, 4, 1, 5, 9, 2, 65535]

# the program, what comes in, the acts, and the first bytes of memory after them; None: it runs on
CASES = [
    ("sluice", levels(5), [come(3, 5), go(1, 5), go(1, 2), go(1, 1)], b"", "end"),
    ("sluice", levels(0), [come(3, 0)], b"", "end"),
    ("sluice", levels(2**32 - 1), [come(3, 2**32 - 1)] + [go(1, (2**32 - 1) >> i) for i in range(32)], b"", "end"),
    ("mean_level", levels(*MEAN), [come(3, v) for v in MEAN] + [go(4, sum(MEAN) // 8)],
     b"".join(v.to_bytes(2, "little") for v in MEAN), "end"),
    ("two_gates", levels(BASE, 1, 2, 7, 1),
     [come(9, BASE), come(0, 1), go(2, 0), go(1, 1), come(0, 2), go(1, 0), go(2, 1), come(0, 7), go(1, 0), go(2, 0),
      come(0, 1), go(2, 0), go(1, 1), come(0, 0), go(1, 0), go(2, 0), come(0, 0)], (3).to_bytes(4, "little"), "acts"),
]


def main():
    failed = 0
    with tempfile.TemporaryDirectory() as folder:
        for name, given, acts, memory, ending in CASES:
            answer = compile_program(sys.argv[1], folder, (EXAMPLES / f"{name}.prog").read_bytes())
            board = Board(answer.words, BASE, bytes(64), 16384, b"\xa5" * answer.stack, given)
            end = board.run(1_000_000, None if ending == "end" else len(acts))
            if board.acts != acts or end != ending or board.memory()[:len(memory)] != memory:
                failed += 1
                print(f"{name}: {board.acts} and not {acts}; {end}; {board.fault}; memory {board.memory().hex()}")
    print(f"{len(CASES)} runs; {failed} differ")
    sys.exit(failed > 0)


if __name__ == "__main__":
    main()
