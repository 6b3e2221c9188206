"""Runs each opcode that the translator accepts on boundary values, in the pages of every mode, in the interpreter of RFC 9669 and in the
Linux kernel. `exec-test/opcodes` starts it.

Every program sets r0 to r9, has one instruction, and folds all registers into r0, so that an instruction that changes more than its
destination is seen too. Left out are what filters run already: local calls, EXIT, and the loads from classic BPF. The page has to give what
the interpreter gives with the mode's differences of EXPECTED; without them the interpreter has to part from the page in these instructions
and no others, and to agree with the kernel in all. A swap of a width that the RFC does not know has to be refused. A page with compact
constants is besides held to the one without them (compact.py): since all registers are in r0, so is each of them. Prints, for each mode, a
line for each kind of instruction and the sums; the last line is 'N passed, M failed', a kind in a mode being one.
"""

import functools
import os
import random
import sys

HERE = os.path.dirname(os.path.abspath(__file__))
sys.path.insert(0, HERE)

import compact
import kernel
from helpers import AT_BORDERS, FUNCTIONS, MIX
from interpreter import BadSwap, Fault, Memory, Run
from loader import pages
from modes import MODES
from names import CONDITIONS, NAMES
from slots import ADD_X, CALL, EXIT, JA, MOV_K, MUL_K, slot, wide

STACK_TOP = 0x70000000
PACKET = bytes(64)
NEG, MOV = 8, 11
BAD_SWAP = 10  # the refusal
EDGES = [0, 1, 0x80, 0xFFFF, 0x7FFFFFFF, 0x80000000, 0x100000000, 0x7FFFFFFFFFFFFFFF, 0x8000000000000001, 0xFFFFFFFFFFFFFFFF]
CONSTANTS = [0, 1, 31, 64, 255, 0x7FFFFFFF, -0x80000000, -1]
# On both sides of the numbers at which a wide load takes another form.
WIDE_CONSTANTS = [0, 1, 2**31 - 1, 2**31, 2**32 - 1, 2**32, 2**63, 2**64 - 2**31 - 1, 2**64 - 2**31, 2**64 - 1]
NO_WIDTHS = [0, 8, 24, 48, 128, -16]

# The instructions in which rbpf's page parts from the RFC: entries of docs/DIFFERENCES.md.
EXPECTED = {"MOV32 X": "A1", "MOD32 K": "A2", "MOD32 X": "A3", "DIV32 K signed": "A4", "DIV32 X signed": "A4", "DIV64 K signed": "A4",
            "DIV64 X signed": "A4", "MOD32 K signed": "A5", "MOD32 X signed": "A5", "MOD64 K signed": "A5", "MOD64 X signed": "A5",
            "MOV32 X from 8": "A6", "MOV32 X from 16": "A6", "MOV64 X from 8": "A6", "MOV64 X from 16": "A6", "MOV64 X from 32": "A6",
            "LE 16": "A8", "LE 32": "A8", "LE other": "A9"}

rng = random.Random(9669)


def word():
    return rng.choice([rng.choice(EDGES), rng.getrandbits(64), rng.getrandbits(32)])


def shuffled():
    """r0 to r9 in any order: as many as there are EDGES."""
    return rng.sample(range(10), 10)


class Case:
    """One instruction (or a few that belong together) between what sets the registers and what folds them; list.txt's fields."""

    helpers, page, form = (), 4096, "mbuff"

    def __init__(self, kind, middle, **values):
        self.kind = kind
        registers = [values.get("r%d" % r, word()) for r in range(10)]
        self.program = b"".join(wide(r, v) for r, v in enumerate(registers)) + middle
        self.program += b"".join(slot(MUL_K, 0, imm=31) + slot(ADD_X, 0, r) for r in range(1, 10)) + slot(EXIT)

    def flags(self):
        return 1

    def bytecode(self):
        return self.program


def by_register(kind, opcode, off=0):
    """Boundary values against each other, then registers: each with itself and with three others."""
    for a in EDGES:
        for b in EDGES:
            dst, src = rng.sample(range(10), 2)
            yield Case(kind, slot(opcode, dst, src, off), **{"r%d" % dst: a, "r%d" % src: b})
    for dst in range(10):
        for src in (dst, *rng.sample([r for r in range(10) if r != dst], 3)):
            yield Case(kind, slot(opcode, dst, src, off))


def by_constant(kind, opcode, off=0, constants=CONSTANTS):
    """Each constant in each register, over every boundary value; then registers again."""
    for imm in constants:
        for dst, a in zip(shuffled(), EDGES):
            yield Case(kind, slot(opcode, dst, 0, off, imm), **{"r%d" % dst: a})
    for dst in range(10):
        yield Case(kind, slot(opcode, dst, 0, off, rng.choice(constants)))


def arithmetic():
    for bits, group in ((32, 4), (64, 7)):
        for code, name in enumerate(NAMES):
            for source, form in ((0, by_constant), (8, by_register)):
                kind, opcode = "%s%d %s" % (name, bits, "X" if source else "K"), code << 4 | source | group
                if code != NEG:
                    yield from form(kind, opcode)
                elif not source:
                    yield from by_constant(kind, opcode, constants=[0])
                if name in ("DIV", "MOD"):
                    yield from form(kind + " signed", opcode, 1)
            for width in (8, 16, 32)[:2 if bits == 32 else 3] if code == MOV else ():
                yield from by_register("MOV%d X from %d" % (bits, width), MOV << 4 | 8 | group, width)
    for opcode, name in ((0xD4, "LE"), (0xDC, "BE")):
        for width in (16, 32, 64):
            yield from by_constant("%s %d" % (name, width), opcode, constants=[width])
        yield from by_constant(name + " other", opcode, constants=NO_WIDTHS)


def jumps():
    """A jump that is taken skips an addition."""
    mark = slot(0x07, 9, imm=1)
    for bits, group in ((64, 5), (32, 6)):
        for code, name in CONDITIONS.items():
            for source, form in ((0, by_constant), (8, by_register)):
                for case in form("%s%s %s" % (name, "" if bits == 64 else "32", "X" if source else "K"), code << 4 | source | group, 1):
                    case.program = case.program[:168] + mark + case.program[168:]
                    yield case
    for value in (0, 1):  # another jump leads to the addition, since the kernel takes no program with a slot that cannot be reached
        yield Case("JA", slot(0x15, 8, off=1) + slot(JA, off=1) + mark, r8=value)


def accesses():
    """On the stack, whose eight bytes are set first. r9 takes the address of the place, with room for every displacement."""
    for size, name in ((0, "W"), (8, "H"), (16, "B"), (24, "DW")):
        for base in range(1, 10):
            for off in (0, 1, 127, 128, -1, -128, -129, 300):
                at = slot(0xBF, base, 10) + slot(0x07, base, imm=-400 - off) + slot(0x7A, base, off=off, imm=-1)
                clear = slot(MOV_K, base)
                value = rng.choice([r for r in range(10) if r != base])
                load = slot(0x79, value, base, off)
                yield Case("LDX " + name, at + slot(0x7B, base, value, off) + slot(0x61 | size, value, base, off) + clear)
                yield Case("ST " + name, at + slot(0x62 | size, base, off=off, imm=rng.choice(CONSTANTS)) + load + clear)
                yield Case("STX " + name, at + slot(0x63 | size, base, value, off) + load + clear)


def wide_loads():
    """As by_constant."""
    for value in WIDE_CONSTANTS:
        for dst, a in zip(shuffled(), EDGES):
            yield Case("LD DW", wide(dst, value), **{"r%d" % dst: a})


def calls():
    """Helpers, each at an address of its own; what a call leaves in r1 to r5 is nobody's business."""
    for helper in (MIX, *AT_BORDERS):
        for _ in range(10):
            case = Case("CALL", slot(CALL, imm=helper) + b"".join(slot(MOV_K, r) for r in range(1, 6)))
            case.helpers = (helper,)
            yield case


@functools.cache
def interpreted(case, differences=()):
    """r0; or the refusal that a page gets for what the RFC gives no meaning."""
    run = Run(case.program, Memory([]), STACK_TOP, {h: FUNCTIONS[h] for h in case.helpers}, (0, 0), differences)
    try:
        return run.result(0)
    except BadSwap:
        return "refused:%d:%d" % (BAD_SWAP, run.pc - 1)
    except Fault as why:
        return str(why)


def in_kernel(case):
    """The kernel's verdict, or None: its verifier takes no division by the constant 0, no shift by a constant that is too large, no swap of
    another width and no helper of ours."""
    try:
        return kernel.verdicts(case.program, False, [PACKET])[0] if kernel.is_allowed() and not case.helpers else None
    except kernel.Refused as why:
        if any(reason in str(why) for reason in ("div by zero", "invalid shift", "BPF_END uses reserved fields")):
            return None
        raise


class Kind:
    """What came of all cases of one kind in one mode."""

    def __init__(self, name, mode):
        self.name, self.cases, self.wrong, self.parted, self.asked, self.unlike_kernel, self.unlike_plain = name, 0, 0, 0, 0, 0, []
        self.entry = None if EXPECTED.get(name) in mode.mended else EXPECTED.get(name)
        self.differences = mode.differences(EXPECTED.values())

    def add(self, case, page, plain, by_rfc, theirs):
        """`plain` is the page without compact constants, where this one has them."""
        ours = page.verdict()
        self.cases += 1
        self.wrong += ours != interpreted(case, self.differences)
        self.parted += ours != by_rfc
        self.asked += theirs is not None
        self.unlike_kernel += theirs is not None and theirs != by_rfc % 2**32
        self.unlike_plain += compact.problems(case, page, plain) if plain else ()

    def problems(self):
        if self.wrong:
            yield "the page differs in %d cases" % self.wrong
        if self.parted and not self.entry:
            yield "the page parts from RFC 9669 in %d cases, and no entry is named" % self.parted
        if self.entry and not self.parted:
            yield "%s does not show" % self.entry
        if self.unlike_kernel:
            yield "the kernel differs from the interpreter in %d cases" % self.unlike_kernel
        if self.unlike_plain:
            yield "%d times, as here: %s" % (len(self.unlike_plain), self.unlike_plain[0])


def judged(mode, cases, ours, by_rfc, by_kernel):
    """The kinds; what the RFC and the kernel say of a case is the same in every mode."""
    kinds = {}
    plain = ours[mode.plain] if mode.is_compact() else [None] * len(cases)
    for case, *rest in zip(cases, ours[mode], plain, by_rfc, by_kernel):
        kinds.setdefault(case.kind, Kind(case.kind, mode)).add(case, *rest)
    return kinds.values()


def say(mode, kinds):
    """Prints a line for each kind, and the sums; gives how many kinds failed."""
    print(mode.name + ":")
    failed = 0
    for kind in kinds:
        problems = list(kind.problems())
        failed += bool(problems)
        print("%-16s %4d programs, %4d in the kernel%s" % (kind.name, kind.cases, kind.asked, ", %s in %d" % (
            kind.entry, kind.parted) if kind.entry else ""))
        for problem in problems:
            print("FAILED %s: %s" % (kind.name, problem))
    parted, asked = sum(bool(kind.parted) for kind in kinds), sum(kind.asked for kind in kinds)
    print("%s: %d of %d kinds part from RFC 9669; %d programs in the kernel" % (mode.name, parted, len(kinds), asked))
    return failed


def all_cases():
    return [case for part in (arithmetic, jumps, accesses, wide_loads, calls) for case in part()]


def main():
    cases = all_cases()
    print("exec-test: %d programs" % len(cases), file=sys.stderr, flush=True)
    by_rfc, by_kernel = [interpreted(case) for case in cases], [in_kernel(case) for case in cases]
    ours, tried, failed = {}, 0, 0
    for mode in MODES:
        ours[mode] = pages(mode, cases, [PACKET])
        kinds = judged(mode, cases, ours, by_rfc, by_kernel)
        tried, failed = tried + len(kinds), failed + say(mode, kinds)
        if mode.is_compact():
            print("%s: %s" % (mode.name, compact.said(zip(ours[mode], ours[mode.plain]))))
    print("%d passed, %d failed" % (tried - failed, failed))
    sys.exit(1 if failed else 0)


if __name__ == "__main__":
    main()
