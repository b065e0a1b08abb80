"""QEMU's RISC-V of 32 bits, by Unicorn, as a board: code from address 0 on, memory, a stack, and doors from 2^30 on.

Needs Debian's python3-unicorn, so it is to be run by /usr/bin/python3.
"""
from unicorn import (UC_ARCH_RISCV, UC_HOOK_BLOCK, UC_HOOK_MEM_READ, UC_HOOK_MEM_WRITE, UC_MEM_WRITE, UC_MODE_RISCV32, UC_PROT_ALL,
                     UC_PROT_EXEC, UC_PROT_READ, Uc, UcError)
from unicorn.riscv_const import UC_RISCV_REG_PC, UC_RISCV_REG_X0

THE_END = 2**30 - 4096
DOORS = 2**30
PAGE = 4096


def pages(low, high):
    return low // PAGE * PAGE, -(-high // PAGE) * PAGE


class Board:
    def __init__(self, words, base, memory, stack_base, stack, given):
        code = b"".join(w.to_bytes(4, "little") for w in words)
        assert len(code) <= base and base + len(memory) <= stack_base and stack_base + len(stack) <= THE_END
        assert stack_base % 16 == 0 and len(stack) % 16 == 0
        self.base, self.length = base, len(memory)
        self.stack_base, self.stack_length = stack_base, len(stack)
        self.code_end = len(code)
        self.given = given
        self.acts = []
        self.came = 0
        self.wanted = None
        self.fault = None
        self.uc = Uc(UC_ARCH_RISCV, UC_MODE_RISCV32)
        self.map(0, len(code) + PAGE, UC_PROT_READ | UC_PROT_EXEC)
        self.uc.mem_write(0, code)
        self.map(base, base + len(memory), UC_PROT_ALL)
        self.map(stack_base, stack_base + len(stack), UC_PROT_ALL)
        self.map(THE_END, THE_END + PAGE, UC_PROT_READ | UC_PROT_EXEC)
        self.uc.mem_write(base, bytes(memory))
        self.uc.mem_write(stack_base, bytes(stack))
        self.uc.mmio_map(DOORS, PAGE, self.door_read, None, self.door_write, None)
        self.uc.hook_add(UC_HOOK_MEM_READ | UC_HOOK_MEM_WRITE, self.access)
        self.uc.hook_add(UC_HOOK_BLOCK, self.block)
        for r in range(32):
            self.uc.reg_write(UC_RISCV_REG_X0 + r, 0)
        self.uc.reg_write(UC_RISCV_REG_X0 + 1, THE_END)
        self.uc.reg_write(UC_RISCV_REG_X0 + 2, stack_base + len(stack))
        self.uc.reg_write(UC_RISCV_REG_PC, 0)

    def map(self, low, high, rights):
        low, high = pages(low, high)
        for page in range(low, high, PAGE):
            if not any(a <= page <= b for a, b, _ in self.uc.mem_regions()):
                self.uc.mem_map(page, PAGE, rights)

    def stop(self, why):
        self.fault = self.fault or why
        self.uc.emu_stop()

    def access(self, uc, kind, address, size, value, _):
        """Every load and store lies inside memory, inside the stack, or is of a whole door."""
        if self.base <= address and address + size <= self.base + self.length:
            return
        if self.stack_base <= address and address + size <= self.stack_base + self.stack_length:
            return
        if size == 4 and address % 4 == 0 and DOORS <= address < DOORS + 1024:
            return
        self.stop(f"{'store' if kind == UC_MEM_WRITE else 'load'} of {size} bytes at {address:#x}")

    def block(self, uc, address, size, _):
        """Every jump goes to a multiple of 4 inside the code, or to the end."""
        if address % 4 or address >= self.code_end and address != THE_END:
            self.stop(f"a jump to {address:#x}")

    def act(self, act):
        self.acts.append(act)
        if self.wanted is not None and len(self.acts) >= self.wanted:
            self.uc.emu_stop()

    def door_read(self, uc, offset, size, _):
        v = self.given(self.came, offset // 4) % 2**32
        self.came += 1
        self.act(("in", offset // 4, v))
        return v

    def door_write(self, uc, offset, size, value, _):
        self.act(("out", offset // 4, value % 2**32))

    def run(self, steps, wanted=None):
        """From the beginning until the end, a fault, so many steps, or so many acts. Says which."""
        self.wanted = wanted
        if wanted == 0:
            return "acts"
        try:
            self.uc.emu_start(0, THE_END, count=steps)
        except UcError as error:
            self.fault = self.fault or f"{error} at {self.uc.reg_read(UC_RISCV_REG_PC):#x}"
        if self.fault:
            return "fault"
        if self.uc.reg_read(UC_RISCV_REG_PC) == THE_END:
            return "end"
        return "acts" if wanted is not None and len(self.acts) >= wanted else "steps"

    def memory(self):
        return bytes(self.uc.mem_read(self.base, self.length))
