"""The tests of the Linux kernel's lib/test_bpf.c: how they are read, which are left out, and the programs in which the others are run.

The table and the functions that make its longer programs are cut out of the file and compiled as they stand there (test_bpf.c, test_bpf.h).
Every test is run but for those to which reason() gives a reason. What counts of a run is the low half of r0, as in the kernel.

A program that is too long for the translator is run in pieces where it is a row of checks, each with an EXIT of its own for the case that it
fails: it is cut behind such an EXIT, and every piece gets the program's first slot and its last two, which set r0. That a piece needs nothing
of those ahead of it is seen by the interpreter, to which a register that nothing has set is a fault.
"""

import io
import os
import struct
import subprocess

from interpreter import Fault, M32, M64, Memory, Run
from machine import BUILT, HERE, compiled, fail

# As in runner.c.
PACKET_END, SHORTEST_RAW = 0x30010000, 64
STACK_TOP = 0x70000000
LONGEST = 16384  # bytes of a program
RUBBISH = [0x123456789ABCDEF1 * r & M64 for r in range(1, 11)]
HEAD = bytes.fromhex("b700000000000000")  # r0 = 0
TAIL = bytes.fromhex("b700000001000000 9500000000000000")  # r0 = 1, EXIT
EXIT = 0x95
LEFT_OUT = {"atomic operations": {0xC3, 0xDB}, "calls": {0x85, 0x8D}, "LD_ABS and LD_IND": {0x20, 0x28, 0x30, 0x40, 0x48, 0x50},
            "swaps, loads and jumps of version 4": {0x06, 0x81, 0x89, 0x91, 0xD7}}
BY_REGISTERS, BY_MEMORY, IN_PIECES = "arithmetic, moves, swaps and jumps", "loads and stores", ", in pieces"


class Test:
    """A test of the table; each of its runs has the bytes of memory that r1 points to, and the result."""

    def __init__(self, name, is_classic, runs, program):
        self.name, self.is_classic, self.runs, self.program = name, is_classic, runs, program

    def pieces(self, longest=LONGEST):
        return [Piece(self, part, memory, result) for memory, result in self.runs for part in parts(self.program, longest)]


class Piece:
    """A program that is run, with list.txt's fields: a test's own, or a part of it."""

    helpers, page = (), 131072

    def __init__(self, test, program, memory, result):
        self.test, self.program, self.memory, self.result = test, program, memory, result

    def flags(self):
        return 0

    def bytecode(self):
        return self.program

    def data(self):
        """The address of the memory, in r1."""
        return PACKET_END - max(self.memory, SHORTEST_RAW)


def parts(program, longest=LONGEST):
    """The program itself where it is short enough; nothing where it is not and cannot be cut."""
    if len(program) <= longest:
        return [program]
    out, start, last = [], len(HEAD), len(program) - len(TAIL)
    if program[:start] + program[last:] != HEAD + TAIL:
        return []
    while start < last:
        end = min(start + longest - len(HEAD + TAIL), last)
        while end > start and program[end - 8] != EXIT:
            end -= 8
        if end == start:
            return []
        out.append(HEAD + program[start:end] + TAIL)
        start = end
    return out


def reason(test):
    """Why a test is left out; None for one that is run."""
    if test.is_classic:
        return "classic BPF"
    slots = {(opcode, off != 0) for opcode, _, off, _ in struct.iter_unpack("<BBhi", test.program)}
    for why, opcodes in LEFT_OUT.items():
        if any(opcode in opcodes for opcode, _ in slots):
            return why
    if any(opcode & 7 in (4, 7) and has_off for opcode, has_off in slots):
        return "signed divisions and moves of version 4"
    return None if parts(test.program) else "more than 2,048 slots, and no row of checks"


def kind(test):
    """What a test that is run is about."""
    accesses = any(opcode & 7 in (1, 2, 3) for opcode in test.program[::8])
    return (BY_MEMORY if accesses else BY_REGISTERS) + (IN_PIECES if len(test.program) > LONGEST else "")


def table(source):
    """The file up to the end of its table of tests and without the kernel's headers, where the compiler finds it."""
    with open(source) as file:
        head, name, rest = file.read().partition("static struct bpf_test tests[] = {\n")
    body, end, _ = rest.partition("\n};\n")
    if not end:
        fail(source + " has no table of tests")
    os.makedirs(BUILT, exist_ok=True)
    path = os.path.join(BUILT, "test_bpf_table.h")
    with open(path, "w") as file:
        file.writelines(line for line in (head + name + body + end).splitlines(True) if not line.startswith("#include"))
    return path


def tests(source):
    """What test_bpf.c writes."""
    command = compiled("test_bpf", [table(source), os.path.join(HERE, "test_bpf.h")], ["-isystem", BUILT])
    written = io.BytesIO(subprocess.run(command, stdout=subprocess.PIPE, check=True).stdout)

    def number():
        return int.from_bytes(written.read(4), "little")

    while length := number():
        name, is_classic = written.read(length).decode(), not number()
        runs = [(number(), number()) for _ in range(number())]
        yield Test(name, is_classic, runs, written.read(8 * number()))


def interpreted(piece, differences=()):
    """The low half of r0, or what else came of the piece. No verifier is asked, and a test may take a register from itself that nothing has
    set; a piece of one may not."""
    run = Run(piece.program, Memory([(piece.data(), bytearray(piece.memory))]), STACK_TOP, {}, (0, 0), differences)
    if piece.program == piece.test.program:
        run.regs[:10] = RUBBISH
    try:
        return run.result(piece.data()) & M32
    except Fault as why:
        return str(why)
