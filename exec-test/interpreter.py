"""An interpreter of eBPF, written from RFC 9669 for the comparison with translated pages; the sections named are that RFC's.

It is strict where the RFC leaves things open, so that a filter that counts on more than it may does not pass: memory outside the regions
that were handed over, a register that nothing has set and too long a run each end it with a Fault.

`differences` names entries of docs/DIFFERENCES.md. For each of these the interpreter does what the translated page does, in place of what
the RFC says; with none it is the RFC's.
"""

import struct

M32, M64 = 2**32 - 1, 2**64 - 1
LD, LDX, ST, STX, ALU, JMP, JMP32, ALU64 = range(8)  # section 3.3
IMM, ABS, IND, MEM, MEMSX = range(5)  # section 5, mode modifier
SIZES = (4, 2, 1, 8)  # section 5, size modifier
CALL, EXIT = 8, 9  # section 4.3
FRAME = 512  # bytes of stack for a function; the RFC names no number, compilers and the kernel have this one
STEPS = 1000000
KNOWN = {"A1", "A2", "A3", "A4", "A5", "A6", "A8", "A9", "A20", "A24", "A25", "A26"}


class Fault(Exception):
    """The program did what no program may."""


class Outside(Fault):
    """An access to memory that was not handed over."""


class BadSwap(Fault):
    """A byte swap of a width that there is not."""


class Finished(Exception):
    """The program is over at once: a legacy load outside the packet (classic BPF)."""


def signed(value, bits):
    value &= 2**bits - 1
    return value - 2**bits if value >> (bits - 1) else value


def swapped(value, bits):
    return int.from_bytes((value & (2**bits - 1)).to_bytes(bits // 8, "little"), "big")


class Memory:
    """Regions of bytes, each at an address of its own."""

    def __init__(self, regions):
        self.regions = list(regions)

    def place(self, address, size):
        for start, data in self.regions:
            if start <= address and address + size <= start + len(data):
                return data, address - start
        raise Outside("%d bytes at %#x are not the program's" % (size, address))

    def load(self, address, size):
        data, at = self.place(address, size)
        return int.from_bytes(data[at:at + size], "little")

    def store(self, address, size, value):
        data, at = self.place(address, size)
        data[at:at + size] = (value & (2**(8 * size) - 1)).to_bytes(size, "little")


def quotient(a, b):
    """Truncated division, section 4.1."""
    return abs(a) // abs(b) * (1 if (a < 0) == (b < 0) else -1)


def divided(code, dst, src, bits, off):
    """DIV, SDIV, MOD and SMOD, section 4.1; by zero, DIV gives 0 and MOD gives dst."""
    a, b = (signed(dst, bits), signed(src, bits)) if off == 1 else (dst, src)
    if b == 0:
        return 0 if code == 3 else dst
    return quotient(a, b) if code == 3 else a - b * quotient(a, b)


def arithmetic(code, dst, src, bits, off):
    """Section 4.1: all but END, on operands of `bits` bits. What is above these in the result is for the caller to cut off."""
    count = src & (bits - 1)
    if code in (3, 9):
        return divided(code, dst, src, bits, off)
    if code == 11:
        return signed(src, off) if off else src
    return {0: lambda: dst + src, 1: lambda: dst - src, 2: lambda: dst * src, 4: lambda: dst | src, 5: lambda: dst & src,
            6: lambda: dst << count, 7: lambda: dst >> count, 8: lambda: -dst, 10: lambda: dst ^ src,
            12: lambda: signed(dst, bits) >> count}[code]()


def holds(code, dst, src, bits):
    """Section 4.3: whether a conditional jump is taken."""
    a, b = signed(dst, bits), signed(src, bits)
    return {1: dst == src, 2: dst > src, 3: dst >= src, 4: dst & src != 0, 5: dst != src, 6: a > b, 7: a >= b,
            10: dst < src, 11: dst <= src, 12: a < b, 13: a <= b}[code]


class Run:
    """One run of a program. `helpers` maps an id to a function of the memory and five numbers; `packet` is the packet's address and length,
    for section 5.5."""

    def __init__(self, program, memory, stack_top, helpers, packet, differences=()):
        assert set(differences) <= KNOWN, differences
        self.slots = [struct.unpack_from("<BBhi", program, at) for at in range(0, len(program), 8)]
        self.memory, self.helpers, self.packet, self.as_page = memory, helpers, packet, set(differences)
        self.stack_top, self.calls, self.pc = stack_top, [], 0
        self.regs = [None] * 11

    def get(self, register):
        if self.regs[register] is None:
            raise Fault("slot %d reads r%d, which nothing has set" % (self.pc - 1, register))
        return self.regs[register]

    def new_frame(self, depth):
        if "A20" not in self.as_page or depth == 0:
            self.memory.regions.append((self.stack_top - FRAME * (depth + 1), bytearray(FRAME)))
            self.regs[10] = self.stack_top - FRAME * depth

    def result(self, r1):
        self.regs[1] = r1
        self.new_frame(0)
        try:
            for _ in range(STEPS):
                if self.step():
                    return self.get(0)
        except Finished:
            return 0
        raise Fault("the program does not end")

    def step(self):
        """One instruction; true where it was the last EXIT."""
        if not 0 <= self.pc < len(self.slots):
            raise Fault("there is no slot %d" % self.pc)
        opcode, registers, off, imm = self.slots[self.pc]
        self.pc += 1
        kind, dst, src = opcode & 7, registers & 15, registers >> 4
        if kind in (ALU, ALU64):
            self.calculate(opcode, 32 if kind == ALU else 64, dst, src, off, imm)
        elif kind in (JMP, JMP32):
            return self.jump(opcode, 32 if kind == JMP32 else 64, dst, src, off, imm)
        else:
            self.access(kind, opcode >> 5, SIZES[opcode >> 3 & 3], dst, src, off, imm)
        return False

    def operand(self, opcode, src, imm, bits):
        """Section 4: the source operand; 4.1 and 4.3: imm is extended by its sign."""
        return (self.get(src) if opcode & 8 else imm) & (2**bits - 1)

    def calculate(self, opcode, bits, dst, src, off, imm):
        code = opcode >> 4
        if code == 13:
            self.regs[dst] = self.converted(opcode, self.get(dst), imm)
            return
        if (code == 3 and "A4" in self.as_page) or (code == 9 and "A5" in self.as_page) or (code == 11 and "A6" in self.as_page):
            off = 0
        if code == 11 and bits == 32 and opcode & 8 and "A1" in self.as_page:
            self.regs[dst] = self.get(src)
            return
        right = self.operand(opcode, src, imm, bits)
        if code == 9 and bits == 32 and right == 0 and ("A3" if opcode & 8 else "A2") in self.as_page:
            return
        left = 0 if code == 11 else self.get(dst) & (2**bits - 1)
        self.regs[dst] = arithmetic(code, left, right, bits, off) & (2**bits - 1)

    def converted(self, opcode, value, bits):
        """Section 4.2, on a little-endian host: LE cuts, BE and the unconditional swap reverse."""
        is_le, is_known = opcode == 0xD4, bits in (16, 32, 64)
        if is_le and ("A8" if is_known else "A9") in self.as_page:
            return value
        if not is_known:
            raise BadSwap("a swap of %d bits" % bits)
        return value & (2**bits - 1) if is_le else swapped(value, bits)

    def jump(self, opcode, bits, dst, src, off, imm):
        code = opcode >> 4
        if code == CALL:
            self.call(src, imm)
        elif code == EXIT:
            return self.leave()
        elif code == 0:
            self.pc += off if bits == 64 else imm
        elif holds(code, self.get(dst) & (2**bits - 1), self.operand(opcode, src, imm, bits), bits):
            self.pc += off
        return False

    def call(self, src, imm):
        """Sections 4.3.1 and 4.3.2. What is left in r1 to r5 afterwards is nobody's business."""
        if src == 0:
            if imm not in self.helpers:
                raise Fault("there is no helper %d" % imm)
            self.regs[0] = self.helpers[imm](self.memory, *self.regs[1:6]) & M64
            self.regs[1:6] = [None] * 5
        elif src == 1:
            self.calls.append((self.pc, self.regs[6:11], len(self.memory.regions)))
            self.pc += imm
            self.new_frame(len(self.calls))
        else:
            raise Fault("a call of kind %d" % src)

    def leave(self):
        if not self.calls:
            return True
        self.pc, self.regs[6:11], regions = self.calls.pop()
        del self.memory.regions[regions:]
        self.regs[1:6] = [None] * 5
        return False

    def access(self, kind, mode, size, dst, src, off, imm):
        """Section 5."""
        if kind == LD and mode == IMM and size == 8 and (src == 0 or "A24" in self.as_page):
            self.regs[dst] = (imm & M32) | (self.slots[self.pc][3] & M32) << 32
            self.pc += 1
        elif kind == LD and mode in (ABS, IND) and size != 8:
            self.legacy(size, imm + (self.get(src) if mode == IND else 0))
        elif kind == LDX and mode in (MEM, MEMSX):
            value = self.memory.load(self.get(src) + off & M64, size)
            self.regs[dst] = (signed(value, 8 * size) if mode == MEMSX else value) & M64
        elif kind in (ST, STX) and mode == MEM:
            self.memory.store(self.get(dst) + off & M64, size, imm if kind == ST else self.get(src))
        else:
            raise Fault("slot %d has an instruction that is not known here" % (self.pc - 1))

    def legacy(self, size, offset):
        """Section 5.5 leaves the meaning to classic BPF: the high byte first, and a load outside the packet ends the program."""
        start, length = self.packet
        if not (0 <= offset and offset + size <= length) and "A26" not in self.as_page:
            raise Finished
        data = self.memory.load(start + offset & M64, size).to_bytes(size, "little")
        self.regs[0] = int.from_bytes(data, "little" if "A25" in self.as_page else "big")
        self.regs[1:6] = [None] * 5
