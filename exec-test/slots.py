"""Slots of eBPF as bytes (RFC 9669, section 3), for programs that are made here."""

import struct

LD_DW, EXIT, CALL, JA = 0x18, 0x95, 0x85, 0x05
MOV_K, MOV_X, ADD_K, ADD_X, SUB_K, MUL_K, XOR_X, XOR32_K = 0xB7, 0xBF, 0x07, 0x0F, 0x17, 0x27, 0xAF, 0xA4  # at 64 bits unless said
JEQ_K, JNE_K = 0x15, 0x55
LDX, ST, STX = 0x61, 0x62, 0x63  # of a word; another size is added
SIZES = {4: 0x00, 2: 0x08, 1: 0x10, 8: 0x18}


def slot(opcode, dst=0, src=0, off=0, imm=0):
    return struct.pack("<BBhi", opcode, src << 4 | dst, off, imm)


def wide(dst, value, src=0):
    """The two slots of a wide load."""
    low, high = struct.unpack("<ii", struct.pack("<Q", value))
    return slot(LD_DW, dst, src, imm=low) + slot(0, imm=high)


def starts(program):
    """Of each slot whether an instruction starts there: the second half of a wide load is none."""
    out, is_second = [], False
    for opcode in program[::8]:
        out.append(not is_second)
        is_second = opcode == LD_DW and not is_second
    return out


def with_tail(program, tail):
    """The program with other slots in place of each EXIT. r1 to r9 are free there."""
    slots = [program[at:at + 8] for at in range(0, len(program), 8)]
    is_start = starts(program)
    if slots and is_start[-1] and slots[-1][0] == EXIT:
        slots.pop()
    out = [slot(JA, off=len(slots) - at - 1) if is_start[at] and each[0] == EXIT else each for at, each in enumerate(slots)]
    return b"".join(out) + tail


def compared(program, result):
    """The program, which leaves 0 in r0 if r0 would be this at EXIT, and else another number. It has up to three slots more."""
    return with_tail(program, wide(1, result) + slot(XOR_X, 0, 1) + slot(EXIT))


def compared_low(program, result):
    """The same for the low half of r0, in up to one slot more."""
    return with_tail(program, slot(XOR32_K, 0, imm=struct.unpack("<i", struct.pack("<I", result))[0]) + slot(EXIT))
