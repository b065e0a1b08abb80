"""Programs as Python values: their bytes, their size, and what they do.

Written from the description of the language alone, and from nothing that is proved, so that the two can be compared.

An expression is a tuple: ("word", n), ("var", x), ("load", size, e), ("choice", c, d, e) or (operator, d, e).
A command is a tuple: ("set", x, e), ("store", size, where, what), ("if", e, commands, commands), ("while", e, commands),
("call", function, arguments, variables), ("in", variable, door) or ("out", door, e).
"""
from dataclasses import dataclass, field

WHOLE = 2**32

OPERATORS = ["add", "sub", "mul", "mul-high", "div", "rem", "and", "or", "xor",
             "shift-right", "shift-left", "shift-signed", "less-signed", "less", "equal"]


@dataclass
class Function:
    arguments: int
    variables: int
    results: list
    body: list


def signed(a):
    return a - WHOLE if a >= WHOLE // 2 else a


def apply(operator, a, b):
    if operator == "add":
        return (a + b) % WHOLE
    if operator == "sub":
        return (a - b) % WHOLE
    if operator == "mul":
        return a * b % WHOLE
    if operator == "mul-high":
        return a * b // WHOLE
    if operator == "div":
        return WHOLE - 1 if b == 0 else a // b
    if operator == "rem":
        return a if b == 0 else a % b
    if operator == "and":
        return a & b
    if operator == "or":
        return a | b
    if operator == "xor":
        return a ^ b
    if operator == "shift-right":
        return a >> (b % 32)
    if operator == "shift-left":
        return (a << (b % 32)) % WHOLE
    if operator == "shift-signed":
        return (signed(a) >> (b % 32)) % WHOLE
    if operator == "less-signed":
        return int(signed(a) < signed(b))
    if operator == "less":
        return int(a < b)
    assert operator == "equal"
    return int(a == b)


# bytes

def number_bytes(n):
    out = []
    while n >= 128:
        out.append(128 + n % 128)
        n = n // 128 - 1
    out.append(n)
    return bytes(out)


def expression_bytes(e):
    kind = e[0]
    if kind == "word":
        return b"\x01" + number_bytes(e[1])
    if kind == "var":
        return b"\x02" + number_bytes(e[1])
    if kind == "load":
        return b"\x03" + number_bytes(e[1]) + expression_bytes(e[2])
    if kind == "choice":
        return b"\x04" + b"".join(expression_bytes(part) for part in e[1:])
    return bytes([0x10 + OPERATORS.index(kind)]) + expression_bytes(e[1]) + expression_bytes(e[2])


def variables_bytes(xs):
    return b"".join(b"\x02" + number_bytes(x) for x in xs) + b"\0"


def commands_bytes(commands):
    return b"".join(command_bytes(c) for c in commands) + b"\0"


def command_bytes(c):
    kind = c[0]
    if kind == "set":
        return b"\x20" + number_bytes(c[1]) + expression_bytes(c[2])
    if kind == "store":
        return b"\x21" + number_bytes(c[1]) + expression_bytes(c[2]) + expression_bytes(c[3])
    if kind == "if":
        return b"\x22" + expression_bytes(c[1]) + commands_bytes(c[2]) + commands_bytes(c[3])
    if kind == "while":
        return b"\x23" + expression_bytes(c[1]) + commands_bytes(c[2])
    if kind == "call":
        return b"\x24" + number_bytes(c[1]) + b"".join(map(expression_bytes, c[2])) + b"\0" + variables_bytes(c[3])
    if kind == "in":
        return b"\x25" + number_bytes(c[1]) + number_bytes(c[2])
    assert kind == "out"
    return b"\x26" + number_bytes(c[1]) + expression_bytes(c[2])


def program_bytes(functions):
    return b"".join(
        b"\x30" + number_bytes(f.arguments) + number_bytes(f.variables) + variables_bytes(f.results) + commands_bytes(f.body)
        for f in functions) + b"\0"


# size: one for each part

def expression_size(e):
    if e[0] in ("word", "var"):
        return 1
    return 1 + sum(expression_size(part) for part in e[1:] if isinstance(part, tuple))


def command_size(c):
    kind = c[0]
    if kind == "set" or kind == "out":
        return 1 + expression_size(c[2])
    if kind == "store":
        return 1 + expression_size(c[2]) + expression_size(c[3])
    if kind == "if":
        return 1 + expression_size(c[1]) + commands_size(c[2]) + commands_size(c[3])
    if kind == "while":
        return 1 + expression_size(c[1]) + commands_size(c[2])
    if kind == "call":
        return 1 + sum(map(expression_size, c[2])) + len(c[3])
    return 1


def commands_size(commands):
    return sum(map(command_size, commands))


def program_size(functions):
    return sum(1 + commands_size(f.body) + len(f.results) for f in functions)


# what a program does

class Stuck(Exception):
    """It does what has no meaning."""


class Tired(Exception):
    """It has not come to its end in the time that it was given."""


@dataclass
class Run:
    functions: list
    base: int
    memory: bytearray
    input: object  # of how much came in before, and the door
    time: int
    acts: list = field(default_factory=list)
    came: int = 0

    def place(self, size, address):
        if address < self.base or address + size > self.base + len(self.memory):
            raise Stuck
        return address - self.base

    def value(self, variables, e):
        kind = e[0]
        if kind == "word":
            return e[1]
        if kind == "var":
            return variables[e[1]]
        if kind == "load":
            at = self.place(e[1], self.value(variables, e[2]))
            return int.from_bytes(self.memory[at:at + e[1]], "little")
        if kind == "choice":
            return self.value(variables, e[2] if self.value(variables, e[1]) != 0 else e[3])
        a = self.value(variables, e[1])
        return apply(kind, a, self.value(variables, e[2]))

    def commands(self, variables, commands):
        for c in commands:
            self.command(variables, c)

    def tick(self):
        self.time -= 1
        if self.time < 0:
            raise Tired

    def command(self, variables, c):
        self.tick()
        kind = c[0]
        if kind == "set":
            variables[c[1]] = self.value(variables, c[2])
        elif kind == "store":
            where = self.value(variables, c[2])
            what = self.value(variables, c[3])
            at = self.place(c[1], where)
            self.memory[at:at + c[1]] = (what % 256**c[1]).to_bytes(c[1], "little")
        elif kind == "if":
            self.commands(variables, c[2] if self.value(variables, c[1]) != 0 else c[3])
        elif kind == "while":
            while self.value(variables, c[1]) != 0:
                self.tick()
                self.commands(variables, c[2])
        elif kind == "call":
            arguments = [self.value(variables, e) for e in c[2]]
            for x, v in zip(c[3], self.call(self.functions[c[1]], arguments)):
                variables[x] = v
        elif kind == "in":
            v = self.input(self.came, c[2]) % WHOLE
            self.came += 1
            self.acts.append(("in", c[2], v))
            variables[c[1]] = v
        else:
            self.acts.append(("out", c[1], self.value(variables, c[2])))

    def call(self, f, arguments):
        variables = arguments + [0] * (f.variables - len(arguments))
        self.commands(variables, f.body)
        return [variables[x] for x in f.results]

    def outcome(self):
        """How it comes out: "ends", "stuck" or "tired". What it did is in acts and memory."""
        try:
            self.call(self.functions[0], [])
            return "ends"
        except Stuck:
            return "stuck"
        except Tired:
            return "tired"


# one sluice: a door is read, and what came in is halved until it is 0
SLUICE = [
    Function(0, 1, [], [
        ("in", 0, 3),
        ("while", ("less", ("word", 0), ("var", 0)), [
            ("out", 1, ("var", 0)),
            ("call", 1, [("var", 0)], [0]),
        ]),
    ]),
    Function(1, 2, [1], [("set", 1, ("shift-right", ("var", 0), ("word", 1)))]),
]
