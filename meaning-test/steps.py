"""The steps of antt's table: each opcode to which RFC 9669's section 4 gives a meaning by registers alone, at values where wrong definitions
part from the right one; and what the interpreter of exec-test/ makes of each step.

Such values are: signs, and sums that wrap; halves of a register that would decide otherwise; zero, in all of a divisor or in its lower half
alone; counts at and over the width, and with bits above them; an imm with its highest bit set; one register as dst and src.
"""

import itertools
import struct

from interpreter import ALU, ALU64, JMP, JMP32, M32, M64, Fault, Memory, Run, signed
from names import CONDITIONS, NAMES

SLOT = 5  # where the instruction stands
PLAIN = [100 + r for r in range(11)]  # what registers hold that the instruction does not name
UNREAD = 5  # an imm that is not to be looked at
TOP, TOP32 = 2**63, 2**31
BIG, SMALL, TURNED = 0x8765432189ABCDEF, 0x12345678FEDCBA98, 0xFEDCBA9812345678  # by their signs at 64 and 32 bits: --, +-, -+
DISTANCES = (3, -4, 0x7FFF, -6)
K, X = 0, 8
LE, BE = 0xD4, 0xDC

# What dst holds, and src or imm.
BY_SRC = [(BIG, SMALL), (M64, 1), (0, M64), (TOP + TOP32, TOP + TOP32 + 1), (2**32, M32)]
BY_IMM = [(BIG, 0x7FFFFFFF), (BIG, TOP32), (1, M32), (M64, 1), (SMALL, 0xFEDCBA98)]
DIVIDED_BY_SRC = [(BIG, SMALL), (SMALL, BIG), (M64, 3), (0x100000007, 0), (0x100000007, 0x900000000), (TOP, M64)]
DIVIDED_BY_IMM = [(BIG, 3), (0x100000007, 0), (M64, TOP32), (M64, M32), (M32, M32), (TOP, M32)]
SHIFTED_BY_SRC = [(BIG, 4), (SMALL, 31), (TURNED, 32), (TURNED, 7), (BIG, 64), (SMALL, 0x100000021), (BIG, M64)]
SHIFTED_BY_IMM = [(BIG, 4), (SMALL, 31), (TURNED, 32), (TURNED, 7), (SMALL, 65), (BIG, M32)]
NEGATED = [0, 1, M64, TOP32, TOP, BIG]
SWAPPED = [0x0102030405060708, BIG, 0x80, TOP]
COMPARED_WITH_SRC = [(M64, 0), (0, M64), (3, 3), (TOP, TOP - 1), (0x17FFFFFFF, 0x180000000), (0x200000005, 0x100000005), (0x400000006, 0x400000003)]
COMPARED_WITH_IMM = [(M64, M32), (M32, M32), (0, M32), (M64, 5), (0x100000003, 5), (TOP, TOP32), (0x7FFFFFFF7FFFFFFF, TOP32), (6, 3)]
VALUES = {"DIV": (DIVIDED_BY_IMM, DIVIDED_BY_SRC), "MOD": (DIVIDED_BY_IMM, DIVIDED_BY_SRC), "LSH": (SHIFTED_BY_IMM, SHIFTED_BY_SRC),
          "RSH": (SHIFTED_BY_IMM, SHIFTED_BY_SRC), "ARSH": (SHIFTED_BY_IMM, SHIFTED_BY_SRC)}


class Step:
    """One instruction, and what dst (`left`) and src (`right`) hold before it. off is signed, imm is not."""

    def __init__(self, name, opcode, dst, src, off, imm, left, right):
        self.name, self.opcode, self.dst, self.src, self.off, self.imm, self.left, self.right = name, opcode, dst, src, off, imm, left, right

    def registers(self):
        out = list(PLAIN)
        out[self.src], out[self.dst] = self.right, self.left
        return out

    def outcome(self):
        """The next slot and the registers behind the step, in the interpreter."""
        slot = struct.pack("<BBhi", self.opcode, self.src << 4 | self.dst, self.off, signed(self.imm, 32))
        run = Run(bytes(8 * SLOT) + slot, Memory([]), 0, {}, (0, 0))
        run.pc, run.regs = SLOT, self.registers()
        run.step()
        return run.pc, run.regs

    def outcome_as(self, opcode):
        """The same of another opcode; None where it has no meaning there. Arithmetic has no off."""
        off = self.off if opcode & 7 in (JMP, JMP32) else 0
        try:
            return Step(self.name, opcode, self.dst, self.src, off, self.imm, self.left, self.right).outcome()
        except Fault:
            return None


def pairs():
    """dst and another register as src, in turn; r10 is not for writing."""
    return ((dst, (dst + ahead) % 11) for ahead in itertools.cycle(range(1, 11)) for dst in range(10))


def by_imm(name, opcode, values, registers, offs):
    for left, imm in values:
        dst, src = next(registers)
        yield Step(name, opcode, dst, src, next(offs), imm, left, SMALL)


def by_src(name, opcode, values, registers, offs):
    """The last has one register as both."""
    for left, right in values:
        dst, src = next(registers)
        yield Step(name, opcode, dst, src, next(offs), UNREAD, left, right)
    dst, _ = next(registers)
    yield Step(name, opcode, dst, dst, next(offs), UNREAD, BIG, BIG)


def arithmetic(registers):
    for bits, group in ((32, ALU), (64, ALU64)):
        for code, name in enumerate(NAMES):
            title, opcode, none = "%s%d" % (name, bits), code << 4 | group, itertools.repeat(0)
            if name == "NEG":
                yield from by_imm(title, opcode, [(left, UNREAD) for left in NEGATED], registers, none)
                continue
            with_imm, with_src = VALUES.get(name, (BY_IMM, BY_SRC))
            yield from by_imm(title + " K", opcode | K, with_imm, registers, none)
            yield from by_src(title + " X", opcode | X, with_src, registers, none)


def swaps(registers):
    for opcode, name in ((LE, "LE"), (BE, "BE")):
        for bits in (16, 32, 64):
            yield from by_imm("%s %d" % (name, bits), opcode, [(left, bits) for left in SWAPPED], registers, itertools.repeat(0))


def jumps(registers):
    offs = itertools.cycle(DISTANCES)
    yield from by_imm("JA", JMP, [(left, UNREAD) for left in (UNREAD, SMALL, TOP - 1, 0, TURNED, BIG)], registers, offs)
    for bits, group in ((64, JMP), (32, JMP32)):
        for code, name in CONDITIONS.items():
            title, opcode = name + ("" if bits == 64 else "32"), code << 4 | group
            yield from by_imm(title + " K", opcode | K, COMPARED_WITH_IMM, registers, offs)
            yield from by_src(title + " X", opcode | X, COMPARED_WITH_SRC, registers, offs)


def steps():
    """By what they are about."""
    registers = pairs()
    return {"arithmetic and moves": list(arithmetic(registers)), "byte swaps": list(swaps(registers)), "jumps": list(jumps(registers))}


def confused(all_steps):
    """The pairs of opcodes of which the first does on all of its steps what the second would do there."""
    by_opcode = {}
    for step in all_steps:
        by_opcode.setdefault(step.opcode, []).append(step)
    return [(one, other) for one in by_opcode for other in by_opcode
            if one != other and all(step.outcome() == step.outcome_as(other) for step in by_opcode[one])]
