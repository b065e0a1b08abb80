"""The code that a program has to have, word by word: a compiler of its own, written from docs/MACHINE.md ("The code").

Nothing of the proved compiler is used. Instructions are encoded by the formats of the RISC-V manual; jumps go to labels,
which get their addresses once all code is there.
"""
from program import OPERATORS

TEMPORARIES = 40
RETURN, FRAME, VALUE, FIRST = 1, 2, 5, 6
ARGUMENTS = 8
DOORS = 0x40000


# words of instructions

def field(number, high, low):
    """Bits high to low of a number, which may be below 0."""
    return number >> low & (1 << high - low + 1) - 1


def signed_12(number):
    assert -2048 <= number < 2048, number
    return field(number, 11, 0)


def r_type(f7, rs2, rs1, f3, rd):
    return f7 << 25 | rs2 << 20 | rs1 << 15 | f3 << 12 | rd << 7 | 0b0110011


def i_type(opcode, f3, rd, rs1, number):
    return signed_12(number) << 20 | rs1 << 15 | f3 << 12 | rd << 7 | opcode


def s_type(f3, rs2, rs1, number):
    raw = signed_12(number)
    return field(raw, 11, 5) << 25 | rs2 << 20 | rs1 << 15 | f3 << 12 | field(raw, 4, 0) << 7 | 0b0100011


def lui(rd, upper):
    return upper << 12 | rd << 7 | 0b0110111


def addi(rd, rs1, number):
    return i_type(0b0010011, 0b000, rd, rs1, number)


def sltiu(rd, rs1, number):
    return i_type(0b0010011, 0b011, rd, rs1, number)


def jalr(rd, rs1, number):
    return i_type(0b1100111, 0b000, rd, rs1, number)


def lw(rd, rs1, number):
    return i_type(0b0000011, 0b010, rd, rs1, number)


def sw(rs2, rs1, number):
    return s_type(0b010, rs2, rs1, number)


def jal(rd, by):
    assert by % 2 == 0 and -2**20 <= by < 2**20, by
    return field(by, 20, 20) << 31 | field(by, 10, 1) << 21 | field(by, 11, 11) << 20 | field(by, 19, 12) << 12 | rd << 7 | 0b1101111


def bne(rs1, rs2, by):
    assert by % 2 == 0 and -2**12 <= by < 2**12, by
    return field(by, 12, 12) << 31 | field(by, 10, 5) << 25 | rs2 << 20 | rs1 << 15 | 0b001 << 12 | field(by, 4, 1) << 8 | field(by, 11, 11) << 7 | 0b1100011


LOADS = {1: 0b100, 2: 0b101, 4: 0b010}  # lbu, lhu, lw
STORES = {1: 0b000, 2: 0b001, 4: 0b010}  # sb, sh, sw

# funct7 and funct3 of the instruction of each operator
INSTRUCTIONS = dict(zip(OPERATORS, [
    (0b0000000, 0b000),  # add
    (0b0100000, 0b000),  # sub
    (0b0000001, 0b000),  # mul
    (0b0000001, 0b011),  # mulhu
    (0b0000001, 0b101),  # divu
    (0b0000001, 0b111),  # remu
    (0b0000000, 0b111),  # and
    (0b0000000, 0b110),  # or
    (0b0000000, 0b100),  # xor
    (0b0000000, 0b101),  # srl
    (0b0000000, 0b001),  # sll
    (0b0100000, 0b101),  # sra
    (0b0000000, 0b010),  # slt
    (0b0000000, 0b011),  # sltu
    (0b0100000, 0b000),  # sub: equal begins with a difference
], strict=True))


# halves of a number for lui and what adds to it

def lo(n):
    low = n % 4096
    return low - 4096 if low >= 2048 else low


def hi(n):
    return (n - lo(n)) % 2**32 // 4096


class Label:
    """A place in the code."""
    address = None


class Assembler:
    """Words one after the other; those that depend on a label are made at the end."""

    def __init__(self):
        self.items = []

    def here(self):
        return 4 * len(self.items)

    def put(self, *words):
        self.items += words

    def mark(self, label):
        label.address = self.here()

    def jump(self, label):
        at = self.here()
        self.items.append(lambda: jal(0, label.address - at))

    def call(self, label):
        self.items.append(lambda: lui(FIRST, hi(label.address)))
        self.items.append(lambda: jalr(RETURN, FIRST, lo(label.address)))

    def words(self):
        return [item if isinstance(item, int) else item() for item in self.items]


def frame_bytes(f):
    needed = 4 * (f.variables + TEMPORARIES + 1)
    return needed + -needed % 16


class FunctionCode:
    """Puts the code of one function into an assembler; labels are where the functions begin."""

    def __init__(self, assembler, labels, function):
        self.out = assembler
        self.labels = labels
        self.function = function
        self.first_free = function.variables

    def load_slot(self, register, slot):
        self.out.put(lw(register, FRAME, 4 * slot))

    def store_slot(self, register, slot):
        self.out.put(sw(register, FRAME, 4 * slot))

    def expression(self, e, free):
        kind = e[0]
        if kind == "word":
            self.out.put(lui(VALUE, hi(e[1])), addi(VALUE, VALUE, lo(e[1])))
        elif kind == "var":
            self.load_slot(VALUE, e[1])
        elif kind == "load":
            self.expression(e[2], free)
            self.out.put(i_type(0b0000011, LOADS[e[1]], VALUE, VALUE, 0))
        elif kind == "choice":
            self.expression(e[1], free)
            self.either(lambda: self.expression(e[2], free), lambda: self.expression(e[3], free))
        else:
            self.operation(kind, e[1], e[2], free)

    def operation(self, operator, first, second, free):
        assert free < self.first_free + TEMPORARIES
        self.expression(first, free)
        self.store_slot(VALUE, free)
        self.expression(second, free + 1)
        self.load_slot(FIRST, free)
        f7, f3 = INSTRUCTIONS[operator]
        self.out.put(r_type(f7, VALUE, FIRST, f3, VALUE))
        if operator == "equal":
            self.out.put(sltiu(VALUE, VALUE, 1))

    def unless(self, label):
        """To the label where the value is 0."""
        self.out.put(bne(VALUE, 0, 8))
        self.out.jump(label)

    def either(self, yes, no):
        other, end = Label(), Label()
        self.unless(other)
        yes()
        self.out.jump(end)
        self.out.mark(other)
        no()
        self.out.mark(end)

    def commands(self, commands):
        for c in commands:
            self.command(c)

    def command(self, c):
        kind = c[0]
        if kind == "set":
            self.expression(c[2], self.first_free)
            self.store_slot(VALUE, c[1])
        elif kind == "store":
            self.store(c[1], c[2], c[3])
        elif kind == "if":
            self.expression(c[1], self.first_free)
            self.either(lambda: self.commands(c[2]), lambda: self.commands(c[3]))
        elif kind == "while":
            self.loop(c[1], c[2])
        elif kind == "call":
            self.call(c[1], c[2], c[3])
        elif kind == "in":
            self.out.put(lui(FIRST, DOORS), lw(VALUE, FIRST, 4 * c[2]))
            self.store_slot(VALUE, c[1])
        else:
            self.expression(c[2], self.first_free)
            self.out.put(lui(FIRST, DOORS), sw(VALUE, FIRST, 4 * c[1]))

    def store(self, size, where, what):
        self.expression(where, self.first_free)
        self.store_slot(VALUE, self.first_free)
        self.expression(what, self.first_free + 1)
        self.load_slot(FIRST, self.first_free)
        self.out.put(s_type(STORES[size], VALUE, FIRST, 0))

    def loop(self, condition, body):
        again, end = Label(), Label()
        self.out.mark(again)
        self.expression(condition, self.first_free)
        self.unless(end)
        self.commands(body)
        self.out.jump(again)
        self.out.mark(end)

    def call(self, function, arguments, variables):
        for k, e in enumerate(arguments):
            self.expression(e, self.first_free + k)
            self.store_slot(VALUE, self.first_free + k)
        for k in range(len(arguments)):
            self.load_slot(ARGUMENTS + k, self.first_free + k)
        self.out.call(self.labels[function])
        for k, x in enumerate(variables):
            self.store_slot(ARGUMENTS + k, x)

    def prologue(self):
        f = self.function
        self.out.put(addi(FRAME, FRAME, -frame_bytes(f)))
        self.store_slot(RETURN, f.variables + TEMPORARIES)
        self.out.put(addi(VALUE, FRAME, 0), addi(FIRST, FRAME, 4 * f.variables))
        zero, zeroed = Label(), Label()
        self.out.mark(zero)
        self.out.put(bne(VALUE, FIRST, 8))
        self.out.jump(zeroed)
        self.out.put(sw(0, VALUE, 0), addi(VALUE, VALUE, 4))
        self.out.jump(zero)
        self.out.mark(zeroed)
        for k in range(f.arguments):
            self.store_slot(ARGUMENTS + k, k)

    def epilogue(self):
        f = self.function
        for k, x in enumerate(f.results):
            self.load_slot(ARGUMENTS + k, x)
        self.load_slot(RETURN, f.variables + TEMPORARIES)
        self.out.put(addi(FRAME, FRAME, frame_bytes(f)), jalr(0, RETURN, 0))

    def whole(self):
        self.prologue()
        self.commands(self.function.body)
        self.epilogue()


def code(functions):
    """The words of a program that is not refused."""
    assembler = Assembler()
    labels = [Label() for _ in functions]
    for label, f in zip(labels, functions):
        assembler.mark(label)
        FunctionCode(assembler, labels, f).whole()
    return assembler.words()


def stack(functions):
    """The bytes of stack that the code needs."""
    return sum(map(frame_bytes, functions))
