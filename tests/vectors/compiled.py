#!/usr/bin/env python3
"""Programs, and the code that they have to have: makes crates/compiler_vectors/stdin and stdout.

Run: python3 tests/vectors/compiled.py [COUNT [FOLDER]]    (so many random programs, 50; and the folder of the two files)

The code is that of tests/second_compiler.py and refusals are those of tests/reader.py; nothing of the proved compiler is used here.
"""
import pathlib
import random
import sys

ROOT = pathlib.Path(__file__).resolve().parents[2]
sys.path[0] = str(ROOT / "tests")

import generate  # noqa: E402
from second_compiler import code, stack  # noqa: E402
from program import OPERATORS, Function, program_bytes, program_size  # noqa: E402
from reader import Reader, refusal  # noqa: E402

LISTED = 60  # longer code is told by its checksum
X, Y, ZERO = ("var", 0), ("var", 1), ("word", 0)


def checksum(words):
    total = 0
    for w in words:
        total = (total * 65599 + w) % 4294967291
    return total


def expected(text):
    """What is printed for a program."""
    refused = refusal(text)
    if refused:
        return [f"refused {refused[0]} at {refused[1]}"]
    functions = Reader(text).program()
    words = code(functions)
    listed = [f"{w:08x}" for w in words] if len(words) <= LISTED else ["checksum", f"{checksum(words):08x}"]
    return [" ".join(["compiled", str(stack(functions)), str(len(words))] + listed),
            "the same with room to spare",
            f"no room {len(words)} untouched"]


# programs

def one(*body, variables=2, results=()):
    return [Function(0, variables, list(results), list(body))]


def nested(inner, wrap, count):
    for _ in range(count):
        inner = wrap(inner)
    return inner


def chosen(place, e, other=ZERO):
    """A choice with e as one of its parts."""
    return ("choice", *(e if i == place else other for i in range(3)))


def tree(leaves):
    """A flat tree of sums with so many leaves."""
    if leaves == 1:
        return X
    return ("add", tree(leaves // 2), tree(leaves - leaves // 2))


def filler(words):
    """Commands with so many words: 2 to set one variable to another, 3 to read a door."""
    sets = -words % 3
    return [("set", 0, Y)] * sets + [("in", 0, 0)] * ((words - 2 * sets) // 3)


def expressions():
    for n in (0, 1, 2047, 2048, 2049, 4095, 4096, 6143, 6144, 2**31 - 2049, 2**31 - 2048, 2**31 - 1, 2**31, 2**31 + 2047,
              2**31 + 2048, 2**32 - 4096, 2**32 - 2049, 2**32 - 2048, 2**32 - 1, 0x12345678, 0x89ABCDEF):
        yield f"word {n}", one(("set", 0, ("word", n)))
    yield "word 2^32", one(("set", 0, ("word", 2**32)))
    for x in (0, 1, 254, 255):
        yield f"variable {x} of 256", one(("set", 255 - x, ("var", x)), variables=256)
    yield "variable 256 of 256", one(("set", 0, ("var", 256)), variables=256)
    for size in (1, 2, 4):
        yield f"load {size}", one(("set", 0, ("load", size, Y)))
    yield "load 3", one(("set", 0, ("load", 3, Y)))
    yield "loads in one another", one(("set", 0, ("load", 1, ("load", 2, ("load", 4, Y)))))
    for o in OPERATORS:
        yield o, one(("set", 0, (o, X, Y)))
    for o in OPERATORS:
        yield f"{o} in both operands of {o}", one(("set", 0, (o, (o, X, Y), (o, Y, ("word", 4095)))))
    yield "choice", one(("set", 0, ("choice", X, Y, ZERO)))
    for place in range(3):
        yield f"choice in part {place} of a choice", one(("set", 0, chosen(place, ("choice", Y, X, Y), Y)))
        yield f"operator in part {place} of a choice in a second operand", one(("set", 0, ("sub", X, chosen(place, ("xor", X, Y), Y))))


def commands():
    add = ("add", X, Y)
    yield "nothing", one()
    yield "no variables", one(variables=0)
    for x in (0, 1, 255):
        yield f"set {x}", one(("set", x, ZERO), variables=256)
    yield "set 256", one(("set", 256, ZERO), variables=256)
    for size in (1, 2, 4):
        yield f"store {size}", one(("store", size, X, Y))
        yield f"store {size} with operators", one(("store", size, add, ("mul", X, ("sub", Y, X))))
    yield "store 0", one(("store", 0, X, Y))
    inside = ("set", 1, X)
    for name, yes, no in (("both empty", [], []), ("without else", [inside], []), ("with else alone", [], [inside]),
                          ("with else", [inside], [inside, ("in", 0, 1)])):
        yield f"if, {name}", one(("if", X, yes, no))
        yield f"if, {name}, by an operator, and something after", one(("if", ("less", X, Y), yes, no), inside)
    yield "ifs in one another", one(("if", X, [("if", Y, [inside], [("if", X, [], [inside])])], [("if", Y, [], [])]))
    yield "while, empty", one(("while", X, []))
    yield "while", one(("while", X, [inside, ("set", 0, ZERO)]))
    yield "while by an operator, and something before and after", one(inside, ("while", ("less", X, Y), [inside]), inside)
    yield "whiles in one another", one(("while", X, [("while", Y, [inside]), ("while", ("load", 4, X), [])]))
    yield "while in if in while", one(("while", X, [("if", Y, [("while", X, [inside])], [("while", Y, [])])]))
    for door in (0, 1, 254, 255):
        yield f"in through {door}", one(("in", 1, door))
        yield f"out through {door}", one(("out", door, add))
    yield "in through 256", one(("in", 1, 256))
    yield "out through 256", one(("out", 256, X))


def calls():
    for count in range(9):
        yield f"call with {count} arguments", one(("call", 1, [("word", 7 + k) for k in range(count)], [])) + [Function(count, count, [], [])]
        yield f"call with {count} results", one(("call", 1, [], list(range(count))), variables=8) + one(variables=8, results=range(8)[-count:] if count else [])
    yield "call with 8 arguments and 8 results", one(("call", 1, [("var", 7 - k) for k in range(8)], [3, 1, 4, 0, 5, 7, 2, 6]), variables=8) + [Function(8, 9, [8, 7, 6, 5, 4, 3, 2, 1], [])]
    yield "call with one variable for all results", one(("call", 1, [], [1] * 8)) + one(results=[0] * 8)
    yield "call with one variable twice", one(("call", 1, [X], [0, 1, 0])) + [Function(1, 3, [2, 0, 2], [])]
    yield "call with operators in arguments", one(("call", 1, [("add", X, Y), ("sub", ("mul", X, Y), Y), ("choice", X, ("or", X, Y), Y)], [])) + [Function(3, 3, [], [])]
    yield "results of the first function", one(results=[1, 0, 1])
    yield "call of the last of three and of the second", one(("call", 2, [], []), ("call", 1, [], [])) + one(("call", 2, [], [])) + one()
    yield "functions that nothing calls", one() + [Function(a, a + 1, [a], []) for a in range(4)]
    # where the halves of an address change; 14 words are those of a function with one call
    for address in (2044, 2048, 2052, 4092, 4096, 4100, 6140, 6144, 8188, 8192):
        yield f"call of a function at {address}", one(("call", 1, [], []), *filler(address // 4 - 14)) + one()
    yield "call of itself", one(("call", 0, [], []))
    yield "call of an earlier function", one() + one(("call", 0, [], []))
    yield "call of no function", one(("call", 1, [], []))
    yield "call with an argument too many", one(("call", 1, [X], [])) + one()
    yield "call with an argument too few", one(("call", 1, [], [])) + [Function(1, 1, [], [])]
    yield "call with a result too many", one(("call", 1, [], [0])) + one()
    yield "call with a result too few", one(("call", 1, [], [])) + one(results=[0])


def jumps():
    """Jumps by so many bytes, on and back."""
    for by in (2044, 2048, 2052, 4092, 4096):
        words = by // 4
        yield f"if with jumps by {by}", one(("if", X, filler(words - 2), filler(words - 1)))
        yield f"while with a jump on by {by}", one(("while", X, filler(words - 2)))
        yield f"while with a jump back by {by}", one(("while", X, filler(words - 3)))
    yield "choice over 1,200 words", one(("set", 0, ("choice", tree(301), tree(302), tree(303))))


def frames():
    for v in [*range(8), 63, 64, 127, 128, 253, 254, 255, 256]:
        yield f"{v} variables", one(variables=v)
    yield "257 variables", one(variables=257)
    for a in range(9):
        yield f"a function of {a} arguments and no other variable", one() + [Function(a, a, [], [])]
    yield "9 arguments", one() + [Function(9, 9, [], [])]
    yield "more arguments than variables", one() + [Function(3, 2, [], [])]
    yield "a first function with an argument", [Function(1, 1, [], [])]
    yield "8 results", one(variables=256, results=range(248, 256))
    yield "9 results", one(results=[0] * 9)
    yield "8 arguments, 8 results, 256 variables", one(("call", 1, [("var", 255 - k) for k in range(8)], [250 + k % 6 for k in range(8)]), variables=256) + [Function(8, 256, list(range(248, 256)), [("set", 255, ("var", 7))])]


def in_turn(count):
    """Ifs and whiles in one another."""
    body = []
    for k in range(count):
        body = [("while", Y, body), ("in", 0, 9)] if k % 2 else [("in", 1, 9), ("if", X, body, [("in", 0, 9)])]
    return body


def bounds():
    for count in (255, 256, 257):
        yield f"{count} functions", one() * count
    chain = [Function(0 if k == 0 else 1, 1, [], [("call", k + 1, [X], [])] if k < 255 else []) for k in range(256)]
    yield "256 functions, each calls the next", chain
    yield "the first of 256 functions calls each of the others", one(*[("call", k, [], []) for k in range(1, 256)]) + one() * 255
    for count in (32, 33):
        deep = {
            "sums, on the left": nested(X, lambda e: ("add", e, Y), count),
            "differences, on the right": nested(X, lambda e: ("sub", Y, e), count),
            "equalities, on the right": nested(X, lambda e: ("equal", Y, e), count),
            "loads": nested(X, lambda e: ("load", 4, e), count),
            **{f"choices, in part {place}": nested(X, lambda e: chosen(place, e, Y), count) for place in range(3)},
        }
        for name, e in deep.items():
            yield f"{count} deep: {name}", one(("set", 0, e))
        right = deep["differences, on the right"]
        yield f"{count} deep: both parts of a store", one(("store", 2, right, right))
        yield f"{count} deep: all 8 arguments", one(("call", 1, [right] * 8, [])) + [Function(8, 8, [], [])]
        yield f"{count} deep: 256 variables", one(("call", 1, [right] * 8, []), variables=256) + [Function(8, 256, [], [])]
        yield f"{count} deep: ifs", one(*nested([], lambda b: [("if", X, b, [])], count))
        yield f"{count} deep: ifs in else", one(*nested([("in", 0, 0)], lambda b: [("if", X, [], b)], count))
        yield f"{count} deep: whiles", one(*nested([("out", 0, X)], lambda b: [("while", X, b)], count))
        yield f"{count} deep: whiles and ifs in turn", one(*in_turn(count))
    # function, out, load and a tree: 8,192
    most = one(("out", 0, ("load", 1, tree(4095))))
    assert program_size(most) == 8192
    yield "size 8,192", most
    yield "size 8,193", [Function(0, 2, [0], most[0].body)]
    # the most words for its size, in one loop: 909 calls of size 9
    call = ("call", 1, [ZERO] * 8, [])
    longest = one(("while", X, [call] * 909 + [("in", 0, 0)] * 7)) + [Function(8, 8, [], [])]
    assert program_size(longest) == 8192, program_size(longest)
    yield "size 8,192, a loop of 30,000 words", longest


def broken():
    """Bytes that are no program, and places."""
    text = (ROOT / "examples" / "sluice.prog").read_bytes()
    yield "no bytes", b""
    yield "no functions", b"\0"
    for length in (1, 20, len(text) - 1):
        yield f"the first {length} bytes of the sluice", text[:length]
    yield "a byte after the sluice", text + b"\0"
    for place in (0, 4, 7, 8, 25, 41):
        yield f"byte {place} of the sluice is 7f", text[:place] + b"\x7f" + text[place + 1:]


def random_programs(count):
    rng = random.Random(5)
    for k in range(count):
        size = rng.choice([5, 10, 20, 40, 60, 100, 150, 250])
        yield f"random, {k}", generate.program(rng.getrandbits(32), size, rng.choice([0.0, 0.2]))


def cases(count):
    """Each case has a name, and is a program or bytes."""
    for path in sorted((ROOT / "examples").glob("*.prog")):
        yield path.stem, path.read_bytes()
    for group in (expressions(), commands(), calls(), jumps(), frames(), bounds(), broken(), random_programs(count)):
        yield from group


def main():
    count = int(sys.argv[1]) if len(sys.argv) > 1 else 50
    folder = pathlib.Path(sys.argv[2]) if len(sys.argv) > 2 else ROOT / "crates" / "compiler_vectors"
    given, wanted, compiled = [], [], 0
    for name, made in cases(count):
        text = made if isinstance(made, bytes) else program_bytes(made)
        given += ["# " + name, text.hex()]
        lines = expected(text)
        compiled += len(lines) > 1
        wanted += ["# " + name] + lines
    (folder / "stdin").write_text("\n".join(given) + "\n")
    (folder / "stdout").write_text("\n".join(wanted) + "\n")
    print(f"{len(given) // 2} texts, {compiled} of them compiled")


if __name__ == "__main__":
    main()
