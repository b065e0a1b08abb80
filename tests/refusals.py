#!/usr/bin/env python3
"""What is refused, and why: edges, and programs and bytes changed at random, compared with an oracle of its own.

Run: python3 tests/refusals.py crates/yongidra/out/yongidra [COUNT [SEED]]
Prints one line for each text that differs, and a summary; status 1 if any did.
"""
import collections
import random
import re
import sys
import tempfile
import threading

import generate
from compiled import compile_program
from program import Function, SLUICE, program_bytes
from reader import refusal

BIG = [0, 1, 2, 3, 4, 5, 7, 8, 9, 127, 128, 255, 256, 257, 16511, 16512, 2**31, 2**32 - 1, 2**32, 2**32 + 1, 2**64 - 1, 2**64, 2**70]


def one(body, variables=4, results=()):
    return [Function(0, variables, list(results), body)]


def nested(inner, wrap, count):
    for _ in range(count):
        inner = wrap(inner)
    return inner


def edges():
    """Programs at each limit and beyond it."""
    zero = ("word", 0)
    yield SLUICE
    yield []
    for n in BIG:
        yield one([("set", 0, ("word", n))])
        yield one([("set", n, zero)])
        yield one([("set", 0, ("var", n))])
        yield one([("set", 0, ("load", n, zero))])
        yield one([("store", n, zero, zero)])
        yield one([("in", 0, n)])
        yield one([("in", n, 0)])
        yield one([("out", n, zero)])
        yield one([], variables=n)
        yield [Function(n, 8, [], [])]
        yield [Function(0, n, [0], [])]
        yield one([("call", n, [], [])]) + one([])
        yield one([("call", 1, [], [])]) + [Function(n, n, [], [])]
        yield one([], results=[n])
    for count in (7, 8, 9):
        yield one([("call", 1, [zero] * count, [])]) + [Function(count, 9, [], [])]
        yield one([("call", 1, [], [0] * count)]) + one([], results=[0] * count)
        yield one([("call", 1, [zero] * count, [])]) + [Function(8, 9, [], [])]
        yield one([("call", 1, [], [0] * count)]) + one([], results=[0] * 8)
        yield one([]) + [Function(count, 9, [], [])]
        yield one([]) + one([], results=[0] * count)
    for count in (31, 32, 33, 40):
        yield one([("set", 0, nested(zero, lambda e: ("add", e, zero), count))])
        yield one([("set", 0, nested(zero, lambda e: ("sub", zero, e), count))])
        yield one([("out", 0, nested(zero, lambda e: ("load", 4, e), count))])
        for place in range(3):
            yield one([("set", 0, nested(zero, lambda e: ("choice", *[e if i == place else zero for i in range(3)]), count))])
        deep = nested(zero, lambda e: ("add", e, zero), count)
        yield one([("store", 4, zero, deep)])
        yield one([("store", 4, deep, zero)])
        yield one([("while", deep, [])])
        yield one([("call", 1, [zero, deep], [])]) + [Function(2, 2, [], [])]
        yield one(nested([], lambda b: [("while", zero, b)], count))
        yield one(nested([("set", 0, deep)], lambda b: [("if", zero, b, [])], 32))
        yield one(nested([("set", 0, zero)], lambda b: [("if", zero, [], b)], count))
        yield one(nested([], lambda b: [("in", 0, 0), ("if", zero, [], []), ("while", zero, b)], count))
    for count in (255, 256, 257):
        yield one([]) * count
        yield one([("set", 0, zero)], variables=count)
    for count in (4095, 4096):
        yield one([("set", 0, zero)] * count)
        yield one([("set", 0, zero)] * count, results=[0])
    for count in (8190, 8191, 8192):
        yield one([("in", 0, 0)] * count)
    # the first reason counts
    wrong = [("set", 0, ("word", 2**32)), ("set", 9, zero), ("call", 0, [], []), ("call", 1, [zero], []),
             ("set", 0, nested(zero, lambda e: ("add", e, zero), 40))]
    for first in range(5):
        for second in range(5):
            yield one([wrong[first], wrong[second]]) + one([])
            yield one([wrong[first]]) + one([]) + one([wrong[second]] if second != 2 else [])


def changed_number(rng, functions):
    """A program in which one number became another."""
    places = []

    def walk(holder):
        items = vars(holder).items() if isinstance(holder, Function) else enumerate(holder)
        for key, part in items:
            if isinstance(part, bool):
                continue
            if isinstance(part, int):
                places.append((holder, key))
            elif isinstance(part, (list, Function)):
                walk(part)

    def thaw(x):
        if isinstance(x, (tuple, list)):
            return [thaw(y) for y in x]
        if isinstance(x, Function):
            return Function(x.arguments, x.variables, thaw(x.results), thaw(x.body))
        return x

    def freeze_expression(e):
        return tuple(freeze_expression(part) if isinstance(part, list) else part for part in e)

    def freeze_command(c):
        kind = c[0]
        if kind in ("if", "while"):
            return (kind, freeze_expression(c[1]), *([freeze_command(d) for d in part] for part in c[2:]))
        if kind == "call":
            return (kind, c[1], [freeze_expression(e) for e in c[2]], c[3])
        return tuple(freeze_expression(part) if isinstance(part, list) else part for part in c)

    thawed = thaw(functions)
    walk(thawed)
    if places:
        holder, key = rng.choice(places)
        if isinstance(holder, Function):
            setattr(holder, key, rng.choice(BIG))
        else:
            holder[key] = rng.choice(BIG)
    return [Function(f.arguments, f.variables, f.results, [freeze_command(c) for c in f.body]) for f in thawed]


def changed_bytes(rng, text):
    """Bytes of which one or a few were changed, left out, put in or said twice."""
    out = bytearray(text)
    for _ in range(rng.choice([1, 1, 1, 2, 5])):
        at = rng.randrange(len(out) + 1)
        kind = rng.randrange(5)
        if kind == 0 and at < len(out):
            out[at] = rng.choice([0, 1, 2, 3, 4, 5, 0x0F, 0x10, 0x1E, 0x1F, 0x20, 0x26, 0x27, 0x2F, 0x30, 0x31, 0x80, 0xFF, rng.randrange(256)])
        elif kind == 1:
            del out[at:at + rng.choice([1, 1, 2, 9])]
        elif kind == 2:
            out[at:at] = bytes([rng.choice([0, 1, 2, 0x20, 0x30, 0x80, 0xFF])])
        elif kind == 3:
            del out[at:]
        else:
            out[at:at] = out[at:at + rng.randrange(20)]
    return bytes(out)


def call_soup(rng):
    """A few functions that call one another, mostly rightly."""
    count = rng.randrange(1, 6)
    shapes = [(0 if k == 0 and rng.random() < 0.9 else rng.choice([0, 1, 2, 8, 9]), rng.choice([0, 1, 2, 8, 9])) for k in range(count)]
    if rng.random() < 0.7:
        shapes = [(min(a, 8), min(r, 8)) for a, r in shapes]
    functions = []
    for k, (arguments, results) in enumerate(shapes):
        body = []
        for _ in range(rng.randrange(4)):
            g = rng.randrange(k + 1, count) if k + 1 < count and rng.random() < 0.9 else rng.randrange(count + 1)
            a, r = shapes[min(g, count - 1)]
            a, r = a + rng.choice([0] * 9 + [1]), r + rng.choice([0] * 9 + [1])
            call = ("call", g, [("word", 0)] * a, [0] * r)
            body.append(rng.choice([call, ("if", ("word", 0), [call], []), ("while", ("word", 0), [call])]))
        functions.append(Function(arguments, 10, [0] * results, body))
    return functions


def depth_soup(rng):
    """Expressions and commands about as deep as may be."""
    def wrap(e):
        other = ("var", 0) if rng.random() < 0.8 else ("add", ("word", 1), ("word", 2))
        kind = rng.randrange(4)
        if kind == 0:
            return ("load", 4, e)
        if kind == 1:
            return ("choice", *rng.sample([e, other, other], 3))
        return (rng.choice(["add", "less"]), *rng.sample([e, other], 2))

    def within(body):
        more = rng.choice([[], [("in", 0, 0)], [("if", ("word", 0), [], [])]])
        return more + [rng.choice([("if", ("var", 0), body, []), ("if", ("var", 0), more, body), ("while", ("var", 0), body)])]

    deep = nested(("word", 0), wrap, rng.randrange(28, 35))
    return one(nested([("set", 0, deep)], within, rng.choice([0, 1, rng.randrange(28, 35)])))


def texts(count, seed):
    for functions in edges():
        yield program_bytes(functions)
    rng = random.Random(seed)
    for k in range(40):
        yield bytes(rng.randrange(256) for _ in range(k))
    for _ in range(count // 4):
        yield program_bytes(call_soup(rng))
        yield program_bytes(depth_soup(rng))
    for _ in range(count // 2):
        functions = generate.program(rng.getrandbits(32), rng.choice([5, 20, 60, 200]), 0.1)
        for _ in range(rng.randrange(3)):
            functions = changed_number(rng, functions)
        text = program_bytes(functions)
        yield changed_bytes(rng, text) if rng.random() < 0.5 else text


def main():
    binary = sys.argv[1]
    count = int(sys.argv[2]) if len(sys.argv) > 2 else 1000
    seed = int(sys.argv[3]) if len(sys.argv) > 3 else 1
    seen, failed = collections.Counter(), 0
    with tempfile.TemporaryDirectory() as folder:
        for i, text in enumerate(texts(count, seed)):
            wanted = refusal(text)
            answer = compile_program(binary, folder, text)
            m = re.match(r"refused (\d+) at (\d+)", answer.message)
            got = None if answer.words is not None else (int(m[1]), int(m[2])) if m else answer.message
            seen[wanted[0] if wanted else 0] += 1
            if got != wanted:
                failed += 1
                print(f"text {i} of seed {seed}: {got} and not {wanted}: {text[:40].hex()} ({len(text)} bytes)")
    print(f"{sum(seen.values())} texts:", ", ".join(f"{n} refused by {k}" if k else f"{n} compiled" for k, n in sorted(seen.items())) + f"; {failed} differ")
    return failed


if __name__ == "__main__":
    # deep trees want a large stack
    threading.stack_size(512 * 2**20)
    result = []
    worker = threading.Thread(target=lambda: result.append(main()))
    worker.start()
    worker.join()
    sys.exit(not result or result[0] > 0)
