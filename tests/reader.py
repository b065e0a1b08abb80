"""Bytes read as a program, and why a program is refused: an oracle of its own, written from the list of refusals."""
import sys

from program import OPERATORS, Function, program_size

sys.setrecursionlimit(100_000)


class Garbled(Exception):
    """The bytes cease to be a program here."""

    def __init__(self, place):
        super().__init__(place)
        self.place = place


class Reader:
    def __init__(self, text):
        self.text = text
        self.at = 0

    def byte(self):
        if self.at >= len(self.text):
            raise Garbled(len(self.text))
        self.at += 1
        return self.text[self.at - 1]

    def number(self):
        total, weight = 0, 1
        while True:
            b = self.byte()
            if b < 128:
                return total + weight * b
            total += weight * (b - 128 + 128)
            weight *= 128

    def garbled(self):
        raise Garbled(self.at - 1)

    def expression(self, tag):
        if tag == 0x01:
            return ("word", self.number())
        if tag == 0x02:
            return ("var", self.number())
        if tag == 0x03:
            size = self.number()
            return ("load", size, self.expression(self.byte()))
        if tag == 0x04:
            c = self.expression(self.byte())
            d = self.expression(self.byte())
            return ("choice", c, d, self.expression(self.byte()))
        if 0x10 <= tag < 0x10 + len(OPERATORS):
            d = self.expression(self.byte())
            return (OPERATORS[tag - 0x10], d, self.expression(self.byte()))
        self.garbled()

    def until_zero(self, read):
        out = []
        while (tag := self.byte()) != 0:
            out.append(read(tag))
        return out

    def variable(self, tag):
        if tag != 0x02:
            self.garbled()
        return self.number()

    def any_expression(self):
        return self.expression(self.byte())

    def command(self, tag):
        if tag == 0x20:
            x = self.number()
            return ("set", x, self.any_expression())
        if tag == 0x21:
            size = self.number()
            where = self.any_expression()
            return ("store", size, where, self.any_expression())
        if tag == 0x22:
            e = self.any_expression()
            yes = self.until_zero(self.command)
            return ("if", e, yes, self.until_zero(self.command))
        if tag == 0x23:
            e = self.any_expression()
            return ("while", e, self.until_zero(self.command))
        if tag == 0x24:
            g = self.number()
            arguments = self.until_zero(self.expression)
            return ("call", g, arguments, self.until_zero(self.variable))
        if tag == 0x25:
            x = self.number()
            return ("in", x, self.number())
        if tag == 0x26:
            door = self.number()
            return ("out", door, self.any_expression())
        self.garbled()

    def function(self, tag):
        if tag != 0x30:
            self.garbled()
        arguments = self.number()
        variables = self.number()
        results = self.until_zero(self.variable)
        return Function(arguments, variables, results, self.until_zero(self.command))

    def program(self):
        functions = self.until_zero(self.function)
        if self.at < len(self.text):
            raise Garbled(self.at)
        return functions


def expressions_in(c):
    """The expressions that a command has itself."""
    if c[0] == "call":
        return c[2]
    return [part for part in c[1:] if isinstance(part, tuple)]


def all_commands(commands):
    for c in commands:
        yield c
        for part in c[1:]:
            if c[0] in ("if", "while") and isinstance(part, list):
                yield from all_commands(part)


def all_expressions(e):
    yield e
    for part in e[1:]:
        if isinstance(part, tuple):
            yield from all_expressions(part)


def parts(f):
    """Each expression of a function, with all that is in it."""
    for c in all_commands(f.body):
        for e in expressions_in(c):
            yield from all_expressions(e)


def out_of_range(f):
    if f.variables > 256:
        return True
    for e in parts(f):
        if e[0] == "word" and e[1] >= 2**32 or e[0] == "load" and e[1] not in (1, 2, 4):
            return True
    for c in all_commands(f.body):
        if c[0] == "store" and c[1] not in (1, 2, 4) or c[0] == "in" and c[2] > 255 or c[0] == "out" and c[1] > 255:
            return True
    return False


def variable_missing(f):
    named = list(f.results) + [e[1] for e in parts(f) if e[0] == "var"]
    for c in all_commands(f.body):
        if c[0] in ("set", "in"):
            named.append(c[1])
        if c[0] == "call":
            named += c[3]
    return f.arguments > f.variables or any(x >= f.variables for x in named)


def calls(f):
    return [c for c in all_commands(f.body) if c[0] == "call"]


def misfits(functions, f):
    if f.arguments > 8 or len(f.results) > 8:
        return True
    return any(len(c[2]) != functions[c[1]].arguments or len(c[3]) != len(functions[c[1]].results) for c in calls(f))


def depth(e):
    inner = [depth(part) for part in e[1:] if isinstance(part, tuple)]
    return 1 + max(inner) if inner else 0


def nesting(commands):
    return max((1 + max(nesting(part) for part in c[1:] if isinstance(part, list)) for c in commands if c[0] in ("if", "while")), default=0)


def too_deep(f):
    return nesting(f.body) > 32 or any(depth(e) > 32 for c in all_commands(f.body) for e in expressions_in(c))


def refusal(text):
    """The number and the place of the refusal, or None."""
    try:
        functions = Reader(text).program()
    except Garbled as garbled:
        return 1, garbled.place
    if any(map(out_of_range, functions)):
        return 2, 0
    if any(map(variable_missing, functions)):
        return 3, 0
    if any(not k < c[1] < len(functions) for k, f in enumerate(functions) for c in calls(f)):
        return 4, 0
    if not functions or functions[0].arguments > 0 or any(misfits(functions, f) for f in functions):
        return 5, 0
    if program_size(functions) > 8192 or len(functions) > 256 or any(map(too_deep, functions)):
        return 6, 0
    return None
