#!/usr/bin/env python3
"""Texts, and what is expected of them, for the program crates/refusals_vectors.

Writes that program's stdin (a text in a line, asked of the scan, of the lexer or of the list of refusals in a stage) and
the stdout that is expected of it, by the reader and the reasons of tests/reader.py. Nothing that is proved takes part.

Run: python3 tests/vectors/texts.py
"""
import pathlib
import random
import sys
import threading

HERE = pathlib.Path(__file__).resolve().parent
CRATE = HERE.parent.parent / "crates" / "refusals_vectors"
sys.path.insert(0, str(HERE.parent))

import generate
from program import OPERATORS, SLUICE, Function, command_bytes, program_bytes, program_size
from reader import Garbled, Reader, all_commands, expressions_in, refusal
from refusals import call_soup, changed_bytes, depth_soup, edges, one


def read(text):
    """The program, or the place where the bytes cease to be one."""
    try:
        return Reader(text).program()
    except Garbled as garbled:
        return garbled.place


# WHAT IS EXPECTED

FORMS = {"while": "l", "call": "c", "in": "d", "out": "d"}


def check(text, stage):
    answer = refusal(text)
    if answer is not None and answer[0] == 1:
        return "refused 1 at %d" % answer[1]
    functions = Reader(text).program()
    if any(FORMS.get(c[0], "") not in stage for f in functions for c in all_commands(f.body)):
        answer = 2, 0
    if answer is not None:
        return "refused %d at %d" % answer
    return "passes, functions %d, size %d" % (len(functions), program_size(functions))


def cap(n):
    return min(n, 2**64 - 1)


NAMES = {"in": "from", "out": "to"}


def token(part):
    """The name of an expression or a command, and its own numbers."""
    return " ".join([NAMES.get(part[0], part[0])] + [str(cap(n)) for n in part[1:] if isinstance(n, int)])


def expression_tokens(e):
    yield token(e)
    for part in e[1:]:
        if isinstance(part, tuple):
            yield from expression_tokens(part)


def variable_tokens(xs):
    yield from ("var %d" % cap(x) for x in xs)
    yield "end"


def command_tokens(commands):
    for c in commands:
        yield token(c)
        for e in expressions_in(c):
            yield from expression_tokens(e)
        if c[0] == "call":
            yield "end"
            yield from variable_tokens(c[3])
        if c[0] in ("if", "while"):
            for part in c[2:]:
                yield from command_tokens(part)
    yield "end"


def tokens(functions):
    for f in functions:
        yield "function %d %d" % (cap(f.arguments), cap(f.variables))
        yield from variable_tokens(f.results)
        yield from command_tokens(f.body)
    yield "end"


# CASES

lines = []
expected = []


def shortened(text):
    """A text in pieces, with a long row of one command or function as one piece."""
    for row in (b"\x25\0\0", b"\x20\0\x01\0", b"\x30\0\x04\0\0"):
        at = text.find(row * 32)
        if at >= 0:
            n = 32
            while text.startswith(row, at + len(row) * n):
                n += 1
            return shortened(text[:at]) + [(row, n)] + shortened(text[at + len(row) * n:])
    return [(text, 1)]


def ask(kind, *pieces, known=None):
    """A text in pieces: bytes, or bytes and how often."""
    ps = [q for p in pieces for q in ([p] if isinstance(p, tuple) else shortened(p))]
    text = b"".join(b * n for b, n in ps)
    lines.append(" ".join([kind] + [b.hex() + ("*%d" % n if n != 1 else "") for b, n in ps if b and n]))
    if kind == "scan":
        r = read(text)
        expected.append("no program from %d on" % r if isinstance(r, int) else "program")
    elif kind == "tokens":
        expected.extend(tokens(read(text)))
    else:
        expected.append(known or check(text, kind))
    return expected[-1]


def place_cases():
    text = program_bytes(SLUICE)
    assert text == bytes.fromhex("3000010025000323 1d010002002601020024010200000200000000 30010202010020011902000101 00 00".replace(" ", "")), text.hex()
    ask("scan")
    ask("tokens", text)
    for k in range(len(text) + 1):
        r = ask("scan", text[:k])
        assert r == ("program" if k == len(text) else "no program from %d on" % k)
    for k in range(len(text)):
        for b in (0x00, 0x01, 0x02, 0x05, 0x10, 0x1f, 0x22, 0x27, 0x30, 0x7f, 0x80, 0xff):
            ask("scan", text[:k] + bytes([b]) + text[k + 1:])
    for b in (0x00, 0x30, 0xff):
        assert ask("scan", text + bytes([b])) == "no program from %d on" % len(text)
    # each operator's tag, and each tag where an expression, a command, a function and a variable are expected
    ask("tokens", program_bytes(one([("set", 0, (o, ("word", 1), ("var", 0))) for o in OPERATORS])))
    for b in range(64):
        ask("scan", b"\x30\x00\x00\x00\x20\x00" + bytes([b]))
        ask("scan", b"\x30\x00\x00\x00\x24\x00" + bytes([b]))
        ask("scan", b"\x30\x00\x00\x00" + bytes([b]))
        ask("scan", b"\x30\x00\x00" + bytes([b]))
        ask("scan", bytes([b]))
    for n in (0, 127, 128, 16511, 16512, 2**32 - 1, 2**32, 2**64 - 2, 2**64 - 1, 2**64, 2**70):
        for f in (Function(0, 1, [], [("set", 0, ("word", n))]), Function(n, n, [n], [("in", n, n), ("call", n, [("load", n, ("var", n))], [n]), ("out", n, ("word", n)), ("store", n, ("word", n), ("word", n))])):
            assert read(program_bytes([f])) == [f]
            ask("scan", program_bytes([f]))
            ask("tokens", program_bytes([f]))
            ask("lcd", program_bytes([f]))
    for pieces in nests(100000):
        ask("scan", *pieces)
        ask("lcd", *pieces, known="refused 6 at 0")
        ask("scan", *pieces[:-1])


def nests(n):
    """Nested n times: loads, operators, choices; ifs in both branches, whiles."""
    start, end = b"\x30\x00\x01\x00\x20\x00", b"\x00\x00"
    leaf = b"\x01\x00"
    yield start, (b"\x03\x01", n), leaf, end
    yield start, (b"\x10", n), leaf, (leaf, n), end
    yield start, (b"\x1e" + leaf, n), leaf, end
    yield start, (b"\x04", n), leaf, (leaf + leaf, n), end
    yield start, (b"\x04" + leaf, n), leaf, (leaf, n), end
    yield start, (b"\x04" + leaf + leaf, n), leaf, end
    begin = b"\x30\x00\x01\x00"
    yield begin, (b"\x22" + leaf, n), (b"\x00\x00", n), end
    yield begin, (b"\x22" + leaf + b"\x00", n), (b"\x00", n), end
    yield begin, (b"\x23" + leaf, n), (b"\x00", n), end
    yield begin, (b"\x22" + leaf + b"\x23" + leaf, n // 2), (b"\x00\x00\x00", n // 2), end


W = ("word", 0)
CALLEE = Function(2, 3, [0, 1], [])


def edge_cases():
    stages = ["-", "l", "c", "d", "lc", "ld", "cd", "lcd"]
    for s in stages:
        ask(s)
        ask(s, b"\x00")
        ask(s, program_bytes(SLUICE))
        ask(s, program_bytes(one([])))
        ask(s, program_bytes(one([("while", W, [])])))
        ask(s, program_bytes(one([("if", W, [], [("while", W, [])])])))
        ask(s, program_bytes(one([("call", 1, [], [])]) + [Function(0, 0, [], [])]))
        ask(s, program_bytes(one([("in", 0, 0)])))
        ask(s, program_bytes(one([("out", 0, W)])))
    # ranges
    for n in (0, 2**32 - 1, 2**32, 2**33, 2**64 - 1, 2**64, 2**70):
        for e in (("word", n), ("load", 4, ("word", n)), ("add", W, ("word", n)), ("add", ("word", n), W), ("choice", ("word", n), W, W), ("choice", W, ("word", n), W), ("choice", W, W, ("word", n))):
            for c in (("set", 0, e), ("store", 1, e, W), ("store", 1, W, e), ("if", e, [], []), ("while", e, []), ("out", 0, e), ("call", 1, [W, e], [0, 1]), ("if", W, [("set", 0, e)], []), ("if", W, [], [("set", 0, e)]), ("while", W, [("set", 0, e)])):
                ask("lcd", program_bytes(one([c]) + [CALLEE]))
    for n in (0, 1, 2, 3, 4, 5, 8, 2**64 + 1, 2**64 + 2, 2**64 + 4):
        ask("-", program_bytes(one([("set", 0, ("load", n, W))])))
        ask("-", program_bytes(one([("store", n, W, W)])))
    for n in (0, 255, 256, 257, 2**32, 2**64, 2**70):
        ask("d", program_bytes(one([("in", 0, n)])))
        ask("d", program_bytes(one([("out", n, W)])))
    for n in (0, 255, 256, 257, 2**64, 2**70):
        ask("-", program_bytes(one([], n)))
        ask("lcd", program_bytes(one([]) + one([], n)))
    # variables
    for x in (0, 3, 4, 5, 255, 256, 2**64, 2**70):
        e = ("var", x)
        for c in (("set", x, W), ("set", 0, e), ("store", 4, e, W), ("store", 4, W, e), ("if", e, [], []), ("if", W, [("set", x, W)], []), ("if", W, [], [("set", x, W)]), ("while", e, []), ("while", W, [("set", 0, e)]), ("in", x, 0),
                  ("out", 0, e), ("call", 1, [W, e], [0, 1]), ("call", 1, [W, W], [0, x]), ("set", 0, ("load", 1, e)), ("set", 0, ("sub", e, W)), ("set", 0, ("sub", W, e)), ("set", 0, ("choice", e, W, W)), ("set", 0, ("choice", W, e, W)),
                  ("set", 0, ("choice", W, W, e))):
            ask("lcd", program_bytes(one([c]) + [CALLEE]))
        ask("-", program_bytes(one([], 4, [x])))
        ask("-", program_bytes(one([], 256, [x])))
    for a, v in ((0, 0), (4, 4), (5, 4), (8, 8), (1, 0), (2**64, 8), (2**70, 256)):
        ask("-", program_bytes(one([]) + [Function(a, v, [], [])]))
    # calls of later functions
    for k in range(4):
        for g in (0, 1, 2, 3, 4, 2**64 - 1, 2**64, 2**70):
            for wrap in (lambda c: c, lambda c: ("if", W, [c], []), lambda c: ("if", W, [], [c]), lambda c: ("while", W, [c])):
                fs = one([]) * 4
                fs[k] = Function(0, 4, [], [wrap(("call", g, [], []))])
                ask("lcd", program_bytes(fs))
    # arguments and results
    for a in (0, 1, 7, 8, 9):
        for r in (0, 1, 7, 8, 9):
            fs = lambda n, m: program_bytes(one([("call", 1, [W] * n, [0] * m)]) + [Function(a, 16, [0] * r, [])])
            for n, m in ((a, r), (a + 1, r), (a, r + 1), (max(a, 1) - 1, r), (a, max(r, 1) - 1), (r, a)):
                ask("c", fs(n, m))
    for a in (0, 1, 2**64, 2**70):
        ask("-", program_bytes([Function(a, 256, [], [])]))
    ask("-", program_bytes(one([], 1, [0] * 8)))
    ask("-", program_bytes(one([], 1, [0] * 9)))
    deep = ("choice", ("add", W, W), ("load", 1, W), ("mul", ("add", W, W), ("var", 0)))
    for n in (0, 1, 2, 3, 4):
        ask("c", program_bytes(one([("call", 1, [deep] * n, [0, 1])]) + [CALLEE]))
        ask("c", program_bytes(one([("if", W, [], [("call", 1, [deep] * n, [0, 1])])]) + [CALLEE]))
        ask("lc", program_bytes(one([("while", W, [("call", 1, [W] * 2, [0] * n)])]) + [CALLEE]))
    # size, number of functions, depth
    for n in (8189, 8190, 8191):
        ask("-", b"\x30\x00\x01\x00\x20\x00", (b"\x03\x01", 1), (b"\x01\x00", 1), (b"\x20\x00\x01\x00", (n - 1) // 2), b"\x00\x00")
    for n in (8189, 8190, 8191, 8192):
        ask("d", b"\x30\x00\x01\x00", (b"\x25\x00\x00", n), b"\x00\x00")
        ask("d", b"\x30\x00\x01\x02\x00\x00", (b"\x25\x00\x00", n), b"\x00\x00")
    for n in (1, 255, 256, 257, 300):
        ask("-", (b"\x30\x00\x00\x00\x00", n), b"\x00")
    for n in (30, 31, 32, 33, 34):
        for pieces in nests(n):
            ask("lcd", *pieces)
    # depths next to each other don't add up
    full = W
    for _ in range(32):
        full = ("load", 1, full)
    ask("lcd", program_bytes(one([("store", 1, full, full), ("if", full, [("set", 0, full)], [("out", 0, full)]), ("call", 1, [full, full], [0, 0])]) + [CALLEE]))
    row = [("set", 0, full)]
    for _ in range(32):
        row = [("if", full, row, row[:1] if row[0][0] == "set" else [])]
    ask("lcd", program_bytes(one(row + row)))
    ask("lcd", program_bytes(one([("while", W, row)])))


def order_cases():
    """For each two reasons a program with both."""
    body = {
        2: [("set", 0, ("word", 2**32))],
        3: [("set", 9, W)],
        4: [("call", 0, [], [])],
        5: [("call", 1, [W], [0, 0])],
        6: [("in", 0, 0)] * 8192,
    }
    small = {k: program_bytes(one(body[k]) + [CALLEE]) for k in body}
    for k in body:
        assert check(small[k], "lcd") == "refused %d at 0" % k
    for j in range(2, 7):
        for k in range(2, 7):
            for cs in (body[j] + body[k], [("if", W, body[j], body[k])]):
                if 6 in (j, k):
                    rest = program_bytes(one([c for c in cs if c[0] != "in"]) + [CALLEE])
                    head = b"\x30\x00\x04\x00"
                    assert rest.startswith(head)
                    r = ask("lcd", head, (b"\x25\x00\x00", 8192), rest[len(head):])
                else:
                    r = ask("lcd", program_bytes(one(cs) + [CALLEE]))
                assert r == "refused %d at 0" % min(j, k), (j, k, r)
        # with something after it, it is no program
        assert ask("lcd", small[j] + b"\x00" if j != 6 else small[2] + b"\x30").startswith("refused 1 ")
    # a first function with arguments, none, and too many functions
    ask("-", program_bytes([Function(1, 1, [], [("set", 7, W)])]))
    ask("-", (b"\x30\x01\x01\x00\x00", 257), b"\x00")
    ask("-", (b"\x30\x00\x00\x00\x00", 257), b"\x30\x09\x09\x00\x00", b"\x00")


def block_cases():
    """Calls in programs of many functions."""
    empty = b"\x30\x00\x00\x00\x00"
    pair = b"\x30\x02\x02\x02\x00\x02\x01\x00\x00"
    for n in (256, 65533, 65534, 65535, 65536, 131071):
        for args, results in ((2, 2), (0, 0), (2, 1), (1, 2)):
            call = command_bytes(("call", n + 1, [W] * args, [0] * results))
            ask("c", b"\x30\x00\x01\x00" + call + b"\x00", (empty, n), pair, (empty, 3), b"\x00")
            ask("c", b"\x30\x00\x01\x00\x00", (empty, n - 1), b"\x30\x00\x01\x00" + call + b"\x00", pair, b"\x00")
    # 200,000 functions and as many calls, each of the last
    last = command_bytes(("call", 199999, [], []))
    ask("c", (b"\x30\x00\x00\x00" + last + b"\x00", 199999), empty, b"\x00")
    ask("c", (b"\x30\x00\x00\x00" + last + b"\x00", 199999), b"\x30\x01\x01\x00\x00", b"\x00")


def random_cases():
    """Programs and bytes changed at random."""
    rng = random.Random(1)
    for functions in edges():
        ask("lcd", program_bytes(functions))
    for _ in range(150):
        ask("lcd", program_bytes(call_soup(rng)))
        ask("lcd", program_bytes(depth_soup(rng)))
        text = program_bytes(generate.program(rng.getrandbits(32), rng.choice([5, 20, 60]), 0.1))
        ask(rng.choice(["lcd", "lcd", "lc", "ld", "cd", "-"]), text)
        ask("lcd", changed_bytes(rng, text))


def run():
    place_cases()
    edge_cases()
    order_cases()
    block_cases()
    random_cases()
    (CRATE / "stdin").write_text("\n".join(lines) + "\n")
    (CRATE / "stdout").write_text("\n".join(expected) + "\n")


# deep trees want a large stack
sys.setrecursionlimit(1000000)
threading.stack_size(1 << 30)
worker = threading.Thread(target=run)
worker.start()
worker.join()
