"""Listings of pages, by objdump and by the reader (the program `decoded`). Each instruction is put into the tuple that model-test has for it:
a name and operands, registers by their machine numbers, immediates and displacements as their two's complement."""

import os
import re
import struct
import subprocess
import tempfile

from machine import OBJDUMP, ROOT, fail

M32 = 2**32 - 1
HEAD = 1 + 3 * 4  # bytes of an accepted answer ahead of its code: 0, L, J, n + 1
LINE = re.compile(r"^ *([0-9a-f]+):\t((?:[0-9a-f]{2} )+) *\t?(.*)$")
MEMORY = re.compile(r"^(BYTE|WORD|DWORD|QWORD) PTR \[(\w+)(?:([+-])0x([0-9a-f]+))?\]$")
SIZES = {"BYTE": 8, "WORD": 16, "DWORD": 32, "QWORD": 64}
NAMES = ["rax", "rcx", "rdx", "rbx", "rsp", "rbp", "rsi", "rdi"]
ALU = {"add", "or", "and", "sub", "xor", "cmp", "mov", "test"}
SHIFT = {"shl", "shr", "sar"}
UNARY = {"neg", "mul", "div"}
COND = {"jb", "jae", "je", "jne", "jbe", "ja", "jl", "jge", "jle", "jg"}
FILLER = b"\x90" * 16  # between two pages, so that a page that is read wrongly does not spoil the next


def registers():
    """Each name: (machine number, bits)."""
    out = {}
    for number, name in enumerate(NAMES):
        out[name], out["e" + name[1:]], out[name[1:]] = (number, 64), (number, 32), (number, 16)
        out[name[1] + "l" if number < 4 else name[1:] + "l"] = (number, 8)
    for number in range(8, 16):
        for ending, bits in (("", 64), ("d", 32), ("w", 16), ("b", 8)):
            out["r%d%s" % (number, ending)] = (number, bits)
    return out


REGISTERS = registers()


class Unread(Exception):
    """objdump printed something that no instruction of the translator looks like."""


def register(text, *widths):
    number, bits = REGISTERS.get(text, (None, None))
    if bits not in widths:
        raise Unread(text)
    return number


def constant(text, bits):
    """An immediate as it is printed at `bits` bits, as the 32 bits or fewer that are in the code."""
    value = int(text, 16)
    stored = value & (2**min(bits, 32) - 1)
    if bits == 64 and value != (stored | (M32 << 32 if stored >> 31 else 0)):
        raise Unread(text)
    return stored


def memory(text):
    """(bits, base, displacement)"""
    match = MEMORY.match(text)
    if not match:
        raise Unread(text)
    size, base, sign, number = match.groups()
    value = int(number, 16) if number else 0
    return SIZES[size], register(base, 64), (-value if sign == "-" else value) & M32


def moved(left, right):
    """MOV with memory on one side."""
    if "[" in right:
        bits, base, displacement = memory(right)
        return ("load", bits, base, register(left, bits), displacement)
    bits, base, displacement = memory(left)
    if right in REGISTERS:
        return ("store", bits, register(right, bits), base, displacement)
    return ("storeImm", bits, base, displacement, constant(right, bits))


def on_two(name, left, right, length):
    """An instruction with two operands."""
    if name == "movzx":
        bits, base, displacement = memory(right)
        return ("load", bits, base, register(left, 32), displacement)
    if name == "movabs":
        return ("movImm", 64, register(left, 64), int(right, 16))
    if name == "rol":
        return ("rol16", register(left, 16), int(right, 16))
    if name == "mov" and "[" in left + right:
        return moved(left, right)
    number, bits = register(left, 32, 64), REGISTERS[left][1]
    # MOV of a constant to 32 bits has two forms, and the same text for both: B8+r is a byte shorter than C7.
    if name == "mov" and bits == 32 and right not in REGISTERS and length == 5 + number // 8:
        return ("movImm", 32, number, constant(right, bits))
    if name in SHIFT:
        return ("shiftCl", name.upper(), bits, number) if right == "cl" else ("shiftImm", name.upper(), bits, number, int(right, 16))
    if name in ALU and right in REGISTERS:
        return ("alu", name.upper(), bits, register(right, bits), number)
    if name in ALU:
        return ("aluImm", name.upper(), bits, number, constant(right, bits))
    raise Unread(name)


def on_one(name, operand, end):
    """An instruction with one operand; a jump's is an address, its field counts from the instruction's end."""
    if name in ("push", "pop"):
        return (name, register(operand, 64))
    if name in UNARY:
        return ("unary", name.upper(), REGISTERS[operand][1], register(operand, 32, 64))
    if name == "bswap":
        return ("bswap", REGISTERS[operand][1], register(operand, 32, 64))
    if name == "call" and operand in REGISTERS:
        return ("callReg", register(operand, 64))
    if name in COND or name in ("jmp", "call"):
        return ("jump", name.upper() if name in COND else name, int(operand, 16) - end & M32)
    raise Unread(name)


def instruction(text, length, end):
    name, _, rest = text.partition(" ")
    operands = [part.strip() for part in rest.split(",")] if rest.strip() else []
    # A byte store has a REX prefix even where its register needs none, and objdump says so.
    if name == "rex" and rest.startswith("mov "):
        return instruction(rest, length, end)
    if not operands and name == "ret":
        return ("ret",)
    if len(operands) == 2:
        return on_two(name, *operands, length)
    if len(operands) == 1:
        return on_one(name, operands[0], end)
    raise Unread(text)


def lines(code):
    """(start, length, text) of everything that objdump sees."""
    with tempfile.TemporaryDirectory() as folder:
        path = os.path.join(folder, "pages")
        with open(path, "wb") as file:
            file.write(code)
        command = [OBJDUMP, "-D", "-b", "binary", "-m", "i386:x86-64", "-M", "intel", "-w", path]
        output = subprocess.Popen(command, stdout=subprocess.PIPE, text=True)
        for line in output.stdout:
            match = LINE.match(line)
            if match:
                start, bytes_of, text = match.groups()
                yield int(start, 16), len(bytes_of.split()), " ".join(text.split("#")[0].split())
        if output.wait():
            fail("objdump failed")


def read(text, length, end):
    """The tuple of an instruction's text, or the text where it is none of the translator's."""
    try:
        return instruction(text, length, end)
    except (Unread, ValueError, KeyError):
        return text


def by_objdump(pages):
    """For each page its (start, length, tuple) as objdump reads it."""
    starts, whole = [], bytearray()
    for page in pages:
        starts.append(len(whole))
        whole += page + FILLER
    out, now = [[] for _ in pages], 0
    for start, length, text in lines(bytes(whole)):
        while now + 1 < len(starts) and starts[now + 1] <= start:
            now += 1
        if start >= starts[now] + len(pages[now]):
            continue
        out[now].append((start - starts[now], length, read(text, length, start + length)))
    return out


def by_reader(answers):
    """For each accepted answer of a stream its number, and its (start, length, tuple) as the reader reads it."""
    done = subprocess.run([os.path.join(ROOT, "run"), "decoded"], input=answers, stdout=subprocess.PIPE)
    if done.returncode:
        fail("the program decoded failed, as it said above")
    out = []
    for line in done.stdout.decode().splitlines():
        first, second, *rest = line.split(" ", 2)
        if first == "page":
            out.append((int(second), []))
        else:
            start, length = int(first, 16), int(second)
            out[-1][1].append((start, length, read(rest[0], length, start + length)))
    return out


class Accepted:
    """An accepted answer of a stream (docs/CASES.md): its number there, its code and its tables. The answer to a case with three tables shows
    neither kinds nor makers, and has none here."""

    def __init__(self, number, rest):
        length, jumps, entries = struct.unpack_from("<III", rest, 1)
        self.number, self.code = number, rest[HEAD:HEAD + length]
        numbers = [each for each, in struct.iter_unpack("<I", rest[HEAD + length:])]
        self.locations, behind = numbers[:entries], numbers[entries:]
        self.fields, self.targets, self.kinds, self.makers = (behind[at * jumps:(at + 1) * jumps] for at in range(4))


def records(stream):
    """The records of a stream of cases or answers, each without the length in front."""
    at = 0
    while at < len(stream):
        length, = struct.unpack_from("<I", stream, at)
        yield stream[at + 4:at + 4 + length]
        at += 4 + length


def as_stream(given):
    return b"".join(struct.pack("<I", len(rest)) + rest for rest in given)


def accepted(answers):
    return [Accepted(number, rest) for number, rest in enumerate(answers) if rest[0] == 0]
