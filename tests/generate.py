#!/usr/bin/env python3
"""Random programs that are not refused.

Run: python3 tests/generate.py SEED SIZE FILE    (writes the bytes of one program)
"""
import random
import sys

from program import OPERATORS, Function, command_size, program_bytes, program_size

# where the harness puts memory, so that programs can use addresses that are inside
BASE = 0x0020_0000
MEMORY = 256

EDGES = [0, 1, 2, 3, 7, 31, 32, 33, 255, 256, 2047, 2048, 2049, 4095, 4096, 65535, 0x7FFFF7FF, 0x7FFFF800,
         0x7FFFFFFF, 0x80000000, 0x80000001, 0xFFFFF7FF, 0xFFFFF800, 0xFFFFFFFE, 0xFFFFFFFF]


class Generator:
    def __init__(self, rng, size, wild=0.0):
        self.rng = rng
        self.size = size
        self.wild = wild  # how often an address is any word, and a loop any loop
        self.functions = []

    def chance(self, p):
        return self.rng.random() < p

    def word(self):
        if self.chance(0.6):
            return ("word", self.rng.choice(EDGES))
        return ("word", self.rng.getrandbits(self.rng.choice([4, 8, 12, 16, 31, 32])))

    def leaf(self):
        if self.favored and self.chance(0.6):
            return ("var", self.rng.choice(self.favored))
        if self.variables and self.chance(0.2):
            return ("var", self.rng.randrange(self.variables))
        return self.word()

    def address(self, size, budget):
        if self.chance(self.wild):
            return self.expression(budget)
        room = 1 << ((MEMORY - size).bit_length() - 1)
        inside = ("and", self.expression(budget - 4), ("word", room - 1))
        return ("add", ("word", BASE), inside) if self.chance(0.5) else ("add", inside, ("word", BASE))

    def expression(self, budget, depth=0):
        if budget <= 1 or depth >= 20 or self.chance(0.15):
            return self.leaf()
        if self.chance(0.12):
            size = self.rng.choice([1, 2, 4])
            return ("load", size, self.address(size, budget - 1)) if depth < 12 else self.leaf()
        if self.chance(0.12):
            part = budget // 3
            return ("choice", *(self.expression(part, depth + 1) for _ in range(3)))
        left = self.rng.randrange(1, max(2, budget - 1))
        return (self.rng.choice(OPERATORS), self.expression(left, depth + 1), self.expression(budget - 1 - left, depth + 1))

    def some(self):
        """A budget for an expression: mostly small."""
        return self.rng.choice([1, 2, 3, 3, 5, 8, 13, 30])

    def loop(self, budget, depth):
        """Mostly a loop that counts a variable of its own down."""
        if self.chance(self.wild) or not self.free:
            return [("while", self.expression(self.some()), self.commands(budget, depth + 1))] if self.chance(self.wild) else []
        x = self.free.pop()
        body = self.commands(budget, depth + 1) + [("set", x, ("sub", ("var", x), ("word", 1)))]
        self.free.append(x)
        return [("set", x, ("word", self.rng.randrange(0, 5))), ("while", ("var", x), body)]

    def call(self):
        later = [g for g in self.later if self.known[g].results == [] or self.targets()]
        if not later:
            return []
        g = self.rng.choice(later)
        f = self.known[g]
        arguments = [self.expression(self.some()) for _ in range(f.arguments)]
        return [("call", g, arguments, [self.rng.choice(self.targets()) for _ in f.results])]

    def targets(self):
        """Variables that may be written: not the counters of loops that are going on."""
        return self.favored if self.favored and self.chance(0.8) else self.writable

    def command(self, budget, depth):
        kind = self.rng.random()
        if kind < 0.35 and self.targets():
            return [("set", self.rng.choice(self.targets()), self.expression(self.some()))]
        if kind < 0.47:
            size = self.rng.choice([1, 2, 4])
            return [("store", size, self.address(size, self.some()), self.expression(self.some()))]
        if kind < 0.6 and depth < 30:
            return [("if", self.expression(self.some()), self.commands(budget // 3, depth + 1), self.commands(budget // 3, depth + 1))]
        if kind < 0.7 and depth < 6:
            return self.loop(budget // 3, depth)
        if kind < 0.8:
            return self.call() or self.command(budget, depth)
        if kind < 0.88 and self.targets():
            return [("in", self.rng.choice(self.targets()), self.rng.choice([0, 1, 2, 255, self.rng.randrange(256)]))]
        return [("out", self.rng.choice([0, 1, 255, self.rng.randrange(256)]), self.expression(self.some()))]

    def commands(self, budget, depth):
        out = []
        while budget > 0:
            made = self.command(budget, depth)
            budget -= 1 + sum(map(command_size, made))
            out += made
            if depth and self.chance(0.25):
                break
        return out

    def function(self, number, budget):
        first = number == 0
        arguments = 0 if first else self.rng.randrange(0, 9)
        counters = self.rng.randrange(0, 4)
        self.variables = min(256, max(arguments, 1) + self.rng.choice([0, 1, 3, 8, 40, 247]) + counters)
        self.free = list(range(self.variables - counters, self.variables)) if counters + arguments <= self.variables else []
        self.writable = [x for x in range(self.variables) if x not in self.free]
        # a few variables are used much: they begin with words that are not 0, and are seen at the end, so that a wrong word shows
        self.favored = self.rng.sample(self.writable, min(len(self.writable), 6))
        body = [("set", x, ("word", self.rng.getrandbits(32))) for x in self.favored if x >= arguments]
        body += self.commands(budget, 0)
        if first or self.chance(0.3):
            body += [("out", 2, ("var", x)) for x in self.favored]
        if first:
            # and what stands in memory
            body += [("out", 3, ("load", 4, ("word", BASE + 4 * k))) for k in self.rng.sample(range(MEMORY // 4), 4)]
            if self.chance(0.1):
                body = [("while", ("word", 1), body)]
        results = [self.rng.choice(self.favored or [0]) for _ in range(self.rng.choice([0, 1, 1, 2, 8]))]
        return Function(arguments, self.variables, results, body)

    def program(self):
        """The last function first, since a function calls only later ones."""
        count = self.rng.choice([1, 1, 2, 3, 5, 9])
        self.known = {}
        made = []
        for number in reversed(range(count)):
            self.later = list(self.known)
            f = self.function(number, self.size // count)
            self.known[number] = f
            made.append(f)
        return made[::-1]


def program(seed, size, wild=0.0):
    """A program of about this size, and never above 8,192."""
    while True:
        functions = Generator(random.Random(seed), size, wild).program()
        if program_size(functions) <= 8192:
            return functions
        size = size * 3 // 4


if __name__ == "__main__":
    seed, size, path = sys.argv[1:]
    made = program(int(seed), int(size))
    with open(path, "wb") as file:
        file.write(program_bytes(made))
    print("size", program_size(made))
