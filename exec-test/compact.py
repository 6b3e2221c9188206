"""What compact constants may change of a page: its length, by exactly what its slots save. The answer, the number of jumps and every verdict
have to be those of the plain page."""

import struct

from helpers import ADDRESSES
from interpreter import M32, M64

WIDE, MOV_64, CALL = 0x18, 0xB7, 0x85
BY_CONSTANT = {0x24, 0x27, 0x34, 0x37, 0x94, 0x97}  # MUL, DIV and MOD: the constant goes to RCX, unless it is 0
BY_REGISTER = {0x3C, 0x3F, 0x9C, 0x9F}  # DIV and MOD: the slot's number goes to RCX
IN_HIGH = {4, 5, 7, 8, 9}  # the registers that are in R8 to R15
LOW = 0  # a register that is not, as RAX and RCX
NO_ROOM = 13  # the refusal


def constants(program, helpers):
    """(register, number) of each constant that the program's page loads."""
    slots, second = list(struct.iter_unpack("<BBhi", program)), False
    for at, (opcode, registers, _, imm) in enumerate(slots):
        if second:
            second = False
        elif opcode == WIDE:
            second = True
            yield registers & 15, imm & M32 | (slots[at + 1][3] & M32) << 32
        elif opcode == MOV_64:
            yield registers & 15, imm & M64
        elif opcode in BY_CONSTANT and imm:
            yield LOW, imm & M64
        elif opcode in BY_REGISTER:
            yield LOW, at
        elif opcode == CALL and registers >> 4 == 0 and imm in helpers:
            yield LOW, ADDRESSES[imm]


def saved(program, helpers):
    """The bytes that a program's page has fewer. A number of 0 to 2^32 - 1 takes five bytes, in R8 to R15 six; in a plain page it takes seven
    up to 2^31 - 1, and else ten. Every other number stays as it is."""
    return sum((7 if number < 2**31 else 10) - (6 if register in IN_HIGH else 5) for register, number in constants(program, helpers)
               if number < 2**32)


def problems(f, page, plain):
    """What is wrong with the compact page of a filter, beside its plain one. Where that did not fit there is nothing to be held to."""
    if plain.number == NO_ROOM:
        return
    if page.answer() != plain.answer():
        yield "the answer is %s, and %s without compact constants" % (page.answer(), plain.answer())
        return
    if page.jumps != plain.jumps:
        yield "it has %d jumps, and %d without compact constants" % (page.jumps, plain.jumps)
    if not page.number and plain.length - page.length != saved(f.bytecode(), f.helpers):
        yield "compact constants save %d bytes, and its slots %d" % (plain.length - page.length, saved(f.bytecode(), f.helpers))
    parted = [n for n, (ours, theirs) in enumerate(zip(page.verdicts, plain.verdicts)) if ours != theirs]
    if parted:
        shown = ", ".join("%d (%s, and %s without)" % (n, page.verdicts[n], plain.verdicts[n]) for n in parted[:4])
        yield "compact constants change %d verdicts: %s" % (len(parted), shown)


def said(pairs):
    """The sums over compact pages and their plain ones, in words."""
    both = [(len(page.verdicts), page.length, plain.length) for page, plain in pairs if plain.verdicts]
    verdicts, ours, theirs = (sum(row[k] for row in both) for k in range(3))
    return "compared with the plain page: %d verdicts of %d pages, in %d bytes and not in %d" % (verdicts, len(both), ours, theirs)
