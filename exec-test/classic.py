"""A rule of tcpdump's as a filter for the model: the classic BPF program that tcpdump makes of the rule, instruction by instruction in eBPF. Such
a filter keeps what tcpdump keeps, of every packet that was captured whole.

r1 is the packet and r2 its length, as `replay` has them; A is r6, X is r7, M[k] is on the stack. As in classic BPF a load outside the packet and
a division by zero drop the packet, and a shift by 32 or more gives 0.
"""

from interpreter import signed
from slots import ADD_K, ADD_X, EXIT, JA, JEQ_K, LDX, MOV_K, MOV_X, SIZES, STX, slot

A, X, AT = 6, 7, 3  # registers; the last for addresses
LD, LDX_CLASS, ST, STX_CLASS, ALU, JMP, RET, MISC = range(8)
IMM, ABS, IND, MEM, LEN, MSH = 0x00, 0x20, 0x40, 0x60, 0x80, 0xA0
BYTES = {0x00: 4, 0x08: 2, 0x10: 1}
LSH, RSH, DIV, MOD = 0x60, 0x70, 0x30, 0x90
AND_K, LSH_K, MOV32_K, MOV32_X, TO_BIG = 0x57, 0x67, 0xB4, 0xBC, 0xDC
JLT_K, JLT32_K, JGT_X = 0xA5, 0xA6, 0x2D
LARGEST, LARGEST_OFF = 2**31 - 1, 2**15 - 1  # imm and off that are not negative
DROP = "drop"  # the label of the end that drops


class Filter:
    """The eBPF program of classic instructions, (code, jt, jf, k) each."""

    def __init__(self, instructions):
        self.slots, self.places = [], {}  # (opcode, dst, src, off, imm, label or None); label: place
        for number, (code, jt, jf, k) in enumerate(instructions):
            self.places[number] = len(self.slots)
            self.add(number, code, jt, jf, k)
        self.places[DROP] = len(self.slots)
        self.leave(0)

    def bytecode(self):
        return b"".join(slot(opcode, dst, src, off if label is None else self.places[label] - at - 1, imm)
                        for at, (opcode, dst, src, off, imm, label) in enumerate(self.slots))

    def put(self, opcode, dst=0, src=0, off=0, imm=0, to=None):
        self.slots.append((opcode, dst, src, off, signed(imm, 32), to))

    def leave(self, verdict):
        self.put(MOV_K, 0, imm=verdict)
        self.put(EXIT)

    def add(self, number, code, jt, jf, k):
        kind = code & 7
        if kind in (LD, LDX_CLASS):
            self.load(A if kind == LD else X, code & 0xE0, BYTES.get(code & 0x18), k)
        elif kind in (ST, STX_CLASS):
            self.put(STX, 10, A if kind == ST else X, off=-4 * (k + 1))
        elif kind == ALU:
            self.calculate(code & 0xF0, code & 8, k)
        elif kind == JMP:
            self.jump(number, code & 0xF0, code & 8, jt, jf, k)
        elif kind == RET:
            self.end(code & 0x18, k)
        else:
            self.put(MOV32_X, *((A, X) if code & 0x80 else (X, A)))

    def load(self, to, mode, size, k):
        if mode == IMM:
            self.put(MOV32_K, to, imm=k)
        elif mode == MEM:
            self.put(LDX, to, 10, off=-4 * (k + 1))
        elif mode == LEN:
            self.put(MOV_X, to, 2)
        elif k > LARGEST - 8:
            self.put(JA, to=DROP)
        else:
            self.load_packet(to, mode, size, k)

    def load_packet(self, to, mode, size, k):
        """The bytes have to be there; the high one comes first."""
        if mode == IND:
            self.load_behind_x(to, size, k)
        else:
            self.load_at(to, size, k)
        if size > 1:
            self.put(TO_BIG, to, imm=8 * size)
        if mode == MSH:
            self.put(AND_K, to, imm=15)
            self.put(LSH_K, to, imm=2)

    def load_at(self, to, size, k):
        self.put(JLT_K, 2, imm=k + size, to=DROP)
        base = 1
        if k > LARGEST_OFF:
            self.put(MOV_X, AT, 1)
            self.put(ADD_K, AT, imm=k)
            base, k = AT, 0
        self.put(LDX | SIZES[size], to, base, k)

    def load_behind_x(self, to, size, k):
        self.put(MOV_X, AT, X)
        self.put(ADD_K, AT, imm=k + size)
        self.put(JGT_X, AT, 2, to=DROP)
        self.put(ADD_X, AT, 1)
        self.put(LDX | SIZES[size], to, AT, -size)

    def calculate(self, operation, by_x, k):
        """At 32 bits, as the same operation of eBPF."""
        if operation in (DIV, MOD) and by_x:
            self.put(JEQ_K, X, imm=0, to=DROP)
        if operation in (LSH, RSH) and by_x:
            self.put(JLT32_K, X, off=1, imm=32)
            self.put(MOV32_K, A)
        if operation in (LSH, RSH) and not by_x and k >= 32:
            self.put(MOV32_K, A)
        else:
            self.put(operation | by_x | 4, A, X if by_x else 0, imm=0 if by_x else k)

    def jump(self, number, operation, by_x, jt, jf, k):
        """A condition of eBPF has the same code, at 32 bits; jf is a jump of its own where it is not the next."""
        if operation == 0:
            self.put(JA, to=number + 1 + signed(k, 32))
            return
        self.put(operation | by_x | 6, A, X if by_x else 0, imm=0 if by_x else k, to=number + 1 + jt)
        if jf:
            self.put(JA, to=number + 1 + jf)

    def end(self, source, k):
        if source == 0x10:
            self.put(MOV_X, 0, A)
            self.put(EXIT)
        else:
            self.leave(min(k, LARGEST))


def program(listing):
    """The bytecode for what `tcpdump -ddd` prints."""
    numbers = [tuple(map(int, line.split())) for line in listing.split("\n")[1:] if line]
    return Filter(numbers).bytecode()
