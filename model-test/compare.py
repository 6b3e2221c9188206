"""Holds the model (model.py, which is Machine.antt in Python) to a real x86-64 processor, and antt's table to the model.

`model-test/run` starts it. Compiles runner.c, runs every case and compares; compares the table in crates/x86_machine/proofs/ModelTests.antt, or
writes it (--emit).
"""

import os
import random
import struct
import subprocess
import sys
import tempfile

HERE = os.path.dirname(os.path.abspath(__file__))
sys.path.insert(0, HERE)

from encode import encode
from model import ALU, COND, M64, RAX, RCX, RDX, RSP, SHIFT, Input, State, Status, does, undefined

TABLE = os.path.join(HERE, "..", "crates", "x86_machine", "proofs", "ModelTests.antt")
CODE, DATA = 0x20000000, 0x30000000
AT, AHEAD, BEHIND, HELPER = 0x100, 0x200, 0x40, 0x300
RECORD = struct.Struct("<32sIIII16QQQQ")
ANSWER = struct.Struct("<16QQIIQ")
WIDTHS = [32, 64]
SIZES = [8, 16, 32, 64]
BASES = [r for r in range(16) if r % 8 != 4]

EDGES = [0, 1, 2, 3, 0x7F, 0x80, 0xFF, 0x7FFF, 0x8000, 0xFFFF, 0x7FFFFFFF, 0x80000000, 0x80000001, 0xFFFFFFFE, 0xFFFFFFFF, 0x100000000,
         0x7FFFFFFFFFFFFFFF, 0x8000000000000000, 0x8000000000000001, 0xFFFFFFFFFFFFFFFE, 0xFFFFFFFFFFFFFFFF]
IMMS = [0, 1, 2, 0x7F, 0x80, 0xFF, 0xFFFF, 0x7FFFFFFF, 0x80000000, 0x80000001, 0xFFFFFFFE, 0xFFFFFFFF]
COUNTS = list(range(0, 41)) + [47, 48, 62, 63, 64, 65, 95, 96, 127, 128, 129, 160, 192, 224, 254, 255]
DISPS = [0, 1, 127, 128, 0x1000, 2**32 - 1, 2**32 - 128, 2**32 - 129, 2**32 - 0x1000]

rng = random.Random(9669)


def word():
    return rng.choice([rng.getrandbits(64), rng.getrandbits(32), rng.choice(EDGES), rng.getrandbits(rng.randrange(1, 65))])


def signed(x):
    return x if x < 2**31 else x - 2**32


def flags_of(f):
    return 0x202 | f.CF | f.ZF << 6 | f.SF << 7 | f.OF << 11


def status_of(n):
    return Status(n & 1, n >> 6 & 1, n >> 7 & 1, n >> 11 & 1)


class Case:
    """An instruction and all that it starts from; `value` is what memory holds where it looks."""

    def __init__(self, i, regs, flags=None, value=0, word_at=0, other=0, helper=0, sent=None):
        self.i, self.regs, self.value, self.word_at, self.other, self.helper, self.sent = i, regs, value, word_at, other, helper, sent
        self.flags = flags or status_of(rng.getrandbits(64))
        self.code = bytes(encode(i))

    def record(self):
        return RECORD.pack(self.code, len(self.code), AT, self.other, self.helper, *self.regs, flags_of(self.flags), self.word_at, self.value)


def registers(**fixed):
    g = [word() for _ in range(16)]
    for k, v in fixed.items():
        g[int(k[1:])] = v
    return g


def having(*pairs):
    g = [word() for _ in range(16)]
    for r, v in pairs:
        g[r] = v
    return g


def two():
    return rng.sample(range(16), 2)


def cases():
    for o in ALU:
        for w in WIDTHS:
            for a in EDGES:
                for b in EDGES:
                    s, d = two()
                    yield Case(("alu", o, w, s, d), having((d, a), (s, b)))
            for a in EDGES:
                r = rng.randrange(16)
                yield Case(("alu", o, w, r, r), having((r, a)))
            for s in range(16):
                for d in range(16):
                    yield Case(("alu", o, w, s, d), registers())
            for _ in range(300):
                s, d = two()
                yield Case(("alu", o, w, s, d), registers())
            for a in EDGES:
                for x in IMMS:
                    d = rng.randrange(16)
                    yield Case(("alu_imm", o, w, d, x), having((d, a)))
            for d in range(16):
                yield Case(("alu_imm", o, w, d, rng.getrandbits(32)), registers())
            for _ in range(300):
                yield Case(("alu_imm", o, w, rng.randrange(16), rng.getrandbits(32)), registers())
    for o in SHIFT:
        for w in WIDTHS:
            for c in COUNTS:
                for a in EDGES:
                    d = rng.randrange(16)
                    yield Case(("shift_imm", o, w, d, c), having((d, a)))
                    d = rng.choice([r for r in range(16) if r != RCX])
                    yield Case(("shift_cl", o, w, d), having((d, a), (RCX, word() // 256 % 2**56 * 256 + c)))
            for d in range(16):
                yield Case(("shift_imm", o, w, d, rng.randrange(256)), registers())
                yield Case(("shift_cl", o, w, d), registers())
            for _ in range(300):
                yield Case(("shift_imm", o, w, rng.randrange(16), rng.randrange(256)), registers())
                yield Case(("shift_cl", o, w, rng.randrange(16)), registers())
    for w in WIDTHS:
        for a in EDGES:
            for r in range(16):
                yield Case(("unary", "NEG", w, r), having((r, a)))
        for a in EDGES:
            for b in EDGES:
                r = rng.choice([r for r in range(16) if r != RAX])
                yield Case(("unary", "MUL", w, r), having((RAX, a), (r, b)))
        for _ in range(600):
            yield Case(("unary", "MUL", w, rng.randrange(16)), registers())
        few = [0, 1, 2, 2**(w - 1) - 1, 2**(w - 1), 2**w - 2, 2**w - 1]
        for h in few:
            for a in few:
                for b in few:
                    r = rng.choice([r for r in range(16) if r not in (RAX, RDX)])
                    yield Case(("unary", "DIV", w, r), having((RDX, h), (RAX, a), (r, b)))
        for _ in range(2000):
            r = rng.choice([r for r in range(16) if r not in (RAX, RDX)])
            b = word() or 1
            yield Case(("unary", "DIV", w, r), having((RDX, word() % (b % 2**w or 1)), (r, b)))
        for _ in range(400):
            yield Case(("unary", "DIV", w, rng.randrange(16)), registers())
    for w in WIDTHS:
        for d in range(16):
            for x in [x for x in EDGES if x < 2**w] + [rng.getrandbits(w) for _ in range(10)]:
                yield Case(("mov_imm", w, d, x), registers())
    for c in range(256):
        for a in rng.sample(EDGES, 6) + [word(), word()]:
            d = rng.randrange(16)
            yield Case(("rol16", d, c), having((d, a)))
    for w in WIDTHS:
        for d in range(16):
            for a in EDGES + [word() for _ in range(10)]:
                yield Case(("bswap", w, d), having((d, a)))
    place = DATA + 0x4000
    for z in SIZES:
        for b in BASES:
            for x in DISPS:
                base = (place - signed(x)) % M64
                for _ in range(3):
                    yield Case(("load", z, b, rng.randrange(16), x), having((b, base)), value=word(), word_at=place)
                s = rng.randrange(16)
                g = having((b, base))
                yield Case(("store", z, s, b, x), g, value=word(), word_at=place, sent=(z, g[s]))
                v = rng.getrandbits(min(z, 32))
                yield Case(("store_imm", z, b, x, v), having((b, base)), value=word(), word_at=place, sent=(z, signed(v) % M64 if z == 64 else v))
        for d in range(16):
            for v in EDGES:
                b = rng.choice(BASES)
                yield Case(("load", z, b, d, 0), having((b, place)), value=v, word_at=place)
    for r in range(16):
        for _ in range(20):
            top = DATA + 8 * rng.randrange(0x100, 0x1000)
            g = having((RSP, top))
            yield Case(("push", r), g, value=word(), word_at=top - 8, sent=(64, g[r]))
            yield Case(("pop", r), having((RSP, top)), value=word(), word_at=top)
    for other in (AHEAD, BEHIND):
        for n in range(16):
            f = Status(n & 1, n >> 1 & 1, n >> 2 & 1, n >> 3 & 1)
            for j in COND + ["jmp", "call"]:
                end = AT + (5 if j in ("jmp", "call") else 6)
                top = DATA + 8 * rng.randrange(0x100, 0x1000)
                yield Case(("jump", j, (other - end) % 2**32), having((RSP, top)), flags=f, other=other, value=word(), word_at=top - 8,
                           sent=(64, CODE + end) if j == "call" else None)
            top = DATA + 8 * rng.randrange(0x100, 0x1000)
            yield Case(("ret",), having((RSP, top)), flags=f, other=other, value=CODE + other, word_at=top)
    for r in range(16):
        if r != RSP:
            for _ in range(5):
                top = DATA + 8 * rng.randrange(0x100, 0x1000)
                yield Case(("call_reg", r), having((RSP, top), (r, CODE + HELPER)), helper=HELPER)


def name(i):
    k = i[0]
    if k in ("alu", "alu_imm", "shift_imm", "shift_cl", "unary"):
        return "%s %s %d" % (k, i[1], i[2])
    if k in ("load", "store", "store_imm", "bswap", "mov_imm"):
        return "%s %d" % (k, i[1])
    return "%s %s" % (k, i[1]) if k == "jump" else k


def answers(all_cases):
    compiler, emulator = os.environ["X86_GCC"], os.environ["EMULATOR"].split()
    with tempfile.TemporaryDirectory() as folder:
        runner = os.path.join(folder, "runner")
        subprocess.run([compiler, "-O1", "-static", "-no-pie", "-o", runner, os.path.join(HERE, "runner.c")], check=True)
        done = subprocess.run([*emulator, runner], input=b"".join(c.record() for c in all_cases), stdout=subprocess.PIPE, check=True)
    out = [ANSWER.unpack_from(done.stdout, k) for k in range(0, len(done.stdout), ANSWER.size)]
    if len(out) != len(all_cases):
        sys.exit("model-test: the runner gave %d answers to %d cases" % (len(out), len(all_cases)))
    return out


def differs(c, a):
    """What the processor did, against what the model says; None if they agree."""
    regs, flags, out, signal, after = list(a[:16]), status_of(a[16]), a[17], a[18], a[19]
    end = AT + len(c.code)
    calls = [(c.other, 0)] if c.i[0] == "ret" else []
    u = Input(value=c.value, back=c.other, regs=c.regs, flags=c.flags)
    outcome, t = does(c.i, end, State(AT, list(c.regs), c.flags, calls), u)
    if outcome == "divided":
        return None if signal == 8 else "the model says #DE, the processor gave signal %d" % signal
    if signal:
        return "signal %d where the model says none" % signal
    if outcome != "running":
        return "the model says " + outcome
    place = {1: end, 2: c.other}.get(out)
    if place != t.pos:
        return "came out at %s, the model says %#x" % (place and hex(place), t.pos)
    for r in range(16):
        if regs[r] != t.regs[r]:
            return "register %d is %#x, the model says %#x" % (r, regs[r], t.regs[r])
    for flag in ("CF", "ZF", "SF", "OF"):
        if flag not in undefined(c.i, c.regs) and getattr(flags, flag) != getattr(t.flags, flag):
            return "%s is %d, the model says %d" % (flag, getattr(flags, flag), getattr(t.flags, flag))
    if c.sent:
        z, v = c.sent
        if after != c.value // 2**z * 2**z + v % 2**z:
            return "memory holds %#x" % after
    elif c.word_at and after != c.value:
        return "memory changed to %#x" % after
    return None


# The table for antt: instructions over word-size numbers, the outcome as a list of numbers.


def term(i):
    k, *a = i
    width = {32: "W32", 64: "W64"}
    size = {8: "S8", 16: "S16", 32: "S32", 64: "S64"}
    if k in ("alu", "alu_imm", "shift_imm", "shift_cl", "unary"):
        return "op (%s %s)" % (k, " ".join([a[0], width[a[1]]] + [str(v) for v in a[2:]]))
    if k in ("bswap", "mov_imm"):
        return "op (%s %s)" % (k, " ".join([width[a[0]]] + [str(v) for v in a[1:]]))
    if k in ("load", "store", "store_imm"):
        return "op (%s %s)" % (k, " ".join([size[a[0]]] + [str(v) for v in a[1:]]))
    if k in ("push", "pop", "rol16"):
        return "op (%s %s)" % (k, " ".join(str(v) for v in a))
    if k == "jump":
        return "jump %s %d" % (a[0] if a[0] in ("jmp", "call") else "(jcc %s)" % a[0], a[1])
    return "call_reg %d" % a[0] if k == "call_reg" else "ret"


def table_cases():
    """instruction, registers that are not 0, flags, undefined flags, allowed, value, back, open calls"""
    t = random.Random(4)

    def w():
        return t.choice([t.getrandbits(64), t.getrandbits(32), t.choice(EDGES)])

    def st():
        return Status(*(t.getrandbits(1) for _ in range(4)))

    def case(i, pairs, allowed=True, value=0, back=0, calls=()):
        return i, pairs, st(), st(), allowed, value, back, list(calls)

    for o in ALU:
        for wd in WIDTHS:
            yield case(("alu", o, wd, 6, 13), [(6, w()), (13, w())])
            yield case(("alu_imm", o, wd, 9, t.choice(IMMS)), [(9, w())])
        yield case(("alu", o, 64, 3, 3), [(3, w())])
    yield case(("alu", "ADD", 32, 0, 1), [(0, 1), (1, 0xFFFFFFFF)])
    yield case(("alu", "ADD", 64, 0, 1), [(0, 1), (1, 0x7FFFFFFFFFFFFFFF)])
    yield case(("alu", "SUB", 32, 0, 1), [(0, 1), (1, 0x80000000)])
    yield case(("alu", "CMP", 64, 0, 1), [(0, 1), (1, 0)])
    for o in SHIFT:
        for wd in WIDTHS:
            for c in (0, 1, 7, wd - 1, wd, wd + 1, 255):
                yield case(("shift_imm", o, wd, 8, c), [(8, t.choice([w(), 0x8000000080000001]))])
            yield case(("shift_cl", o, wd, 8), [(8, w()), (1, w())])
            yield case(("shift_cl", o, wd, 1), [(1, w())])
    for wd in WIDTHS:
        for a in (0, 1, 2**(wd - 1), 2**wd - 1, w()):
            yield case(("unary", "NEG", wd, 5), [(5, a)])
        for a, b in ((0, w()), (2**wd - 1, 2**wd - 1), (3, 5), (w(), w())):
            yield case(("unary", "MUL", wd, 1), [(0, a), (1, b), (2, w())])
        for h, a, b in ((0, 7, 2), (0, 7, 0), (1, 0, 1), (2, 5, 3), (0, 2**wd - 1, 2**wd - 1)):
            yield case(("unary", "DIV", wd, 1), [(0, a), (1, b), (2, h)])
        yield case(("bswap", wd, 15), [(15, 0x0123456789ABCDEF)])
    yield case(("mov_imm", 64, 11, 0xFEDCBA9876543210), [(11, 1)])
    for c in (0, 1, 8, 16, 17, 32, 40, 255):
        yield case(("rol16", 7, c), [(7, t.choice([0x0123456789ABCDEF, 0xFFFFFFFFFFFF8001]))])
    for z in SIZES:
        yield case(("load", z, 10, 0, 4294967288), [(10, w())], value=w())
        yield case(("store", z, 8, 9, 0), [(8, w()), (9, w())])
        yield case(("store_imm", z, 5, 0, 1), [(5, w())])
    yield case(("load", 64, 10, 0, 0), [(10, w())], allowed=False, value=w())
    yield case(("push", 13), [(RSP, 0), (13, w())])
    yield case(("push", 4), [(RSP, 4)])
    yield case(("pop", 13), [(RSP, M64 - 8)], value=w())
    yield case(("pop", 4), [(RSP, w())], value=w())
    for j in COND:
        for _ in range(3):
            yield case(("jump", j, t.choice([5, 0xFFFFFFF0, 0x7FFFFFFF, 0x80000000])), [])
    yield case(("jump", "jmp", 5), [])
    yield case(("jump", "jmp", 0xFFFFFFFB), [])
    yield case(("jump", "call", 5), [(RSP, w())])
    yield case(("jump", "call", 5), [(RSP, w())], allowed=False)
    yield case(("call_reg", 0), [(0, w()), (1, w()), (RSP, w()), (13, w())], value=w())
    yield case(("ret",), [(RSP, w())], back=77)
    yield case(("ret",), [(RSP, w())], back=77, calls=[(77, w()), (5, w())])
    yield case(("ret",), [(RSP, w())], back=78, calls=[(77, w())])
    # an access that is not allowed, whatever else there is to say; and what accesses nothing, to which it is all the same
    for i in [("push", 13), ("pop", 13), ("pop", RSP), ("call_reg", 0), ("ret",)]:
        yield case(i, [(RSP, w())], allowed=False, value=w(), back=77)
    for z in SIZES:
        yield case(("load", z, 10, 0, 0), [(10, w())], allowed=False, value=w())
        yield case(("store", z, 8, 9, 0), [(8, w()), (9, w())], allowed=False)
        yield case(("store_imm", z, 5, 0, 1), [(5, w())], allowed=False)
    yield case(("ret",), [(RSP, w())], allowed=False, back=77, calls=[(77, w())])
    yield case(("ret",), [(RSP, w())], allowed=False, back=78, calls=[(77, w())])
    yield case(("alu", "ADD", 64, 6, 13), [(6, w()), (13, w())], allowed=False)
    yield case(("unary", "DIV", 64, 1), [(0, 7), (1, 0)], allowed=False)
    yield case(("jump", "jmp", 5), [], allowed=False)
    yield case(("jump", "JE", 5), [], allowed=False)
    # a constant of 32 bits, into a register whose upper half is set: it is cleared, and no sign is extended
    for d, x in ((11, 0xFEDCBA98), (1, 0x7FFFFFFF), (RSP, 0)):
        yield case(("mov_imm", 32, d, x), [(d, M64 - 1)])
    yield case(("mov_imm", 32, 0, 5), [(0, M64 - 1)], allowed=False)


CODES = {"running": 0, "finished": 1, "faulted": 2, "unbalanced": 3, "divided": 4}


def helper_regs(value):
    return [(value + r) for r in range(16)]


def expected(i, pairs, f, u, allowed, value, back, calls):
    g = [0] * 16
    for r, v in pairs:
        g[r] = v
    given = Input(allowed, value, back, helper_regs(value), u)
    outcome, t = does(i, 3 + len(encode(i)), State(3, g, f, calls), given)
    line = [CODES[outcome]]
    if t is not None:
        line += [t.pos] + t.regs + t.flags.bits() + [n for call in t.calls for n in call]
    return line


def numbers(l):
    return "(" + " ∷ ".join([str(n) for n in l] + ["[]"]) + ")"


def emit():
    def st(f):
        return "(st %s)" % " ".join("I" if b else "O" for b in f.bits())

    lines = []
    count = 0
    for i, pairs, f, u, allowed, value, back, calls in table_cases():
        writes = "(" + " ∷ ".join(["write %d %d" % p for p in pairs] + ["[]"]) + ")"
        frames = "(" + " ∷ ".join(["frame %d %d" % p for p in calls] + ["[]"]) + ")"
        lines.append("    line (%s) %s %s %s %s %d %d %s" % (term(i), writes, st(f), st(u), "true" if allowed else "false", value, back, frames))
        lines.append("    %s ∷" % numbers(expected(i, pairs, f, u, allowed, value, back, calls)))
        count += 1
    lines.append("    []")
    head = open(os.path.join(HERE, "ModelTests.head")).read()
    return head.replace("@COUNT@", str(count)) + "\n".join(lines) + open(os.path.join(HERE, "ModelTests.tail")).read(), count


def squeezed(text):
    return "".join(text.split())


def main():
    text, count = emit()
    if "--emit" in sys.argv:
        with open(TABLE, "w") as out:
            out.write(text)
        print("model-test: wrote a table of %d cases" % count)
        return
    all_cases = list(cases())
    compared, wrong = {}, 0
    for c, a in zip(all_cases, answers(all_cases)):
        problem = differs(c, a)
        compared[name(c.i)] = compared.get(name(c.i), 0) + 1
        if problem:
            wrong += 1
            if wrong <= 20:
                print("DIFFERENT: %s, flags %s, registers %s: %s" % (c.i, c.flags.bits(), [hex(r) for r in c.regs], problem))
    for k, n in compared.items():
        print("%-18s %6d" % (k, n))
    same = os.path.exists(TABLE) and squeezed(open(TABLE).read()) == squeezed(text)
    if not same:
        print("DIFFERENT: crates/x86_machine/proofs/ModelTests.antt is not the table of this model (model-test/run --emit)")
    print("model-test: %d cases on the processor, %d different; %d cases in antt's table" % (len(all_cases), wrong, count))
    sys.exit(1 if wrong or not same else 0)


main()
