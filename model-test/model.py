"""The processor of crates/x86_machine/specs/Machine.antt, said over again in Python, definition by definition under the same names.

It reads nothing from antt. `run` holds it to a real processor, and writes a table of its answers that antt computes again
(crates/x86_machine/proofs/ModelTests.antt): so the two are one model, and that model is the processor's.
"""

RAX, RCX, RDX, RBX, RSP, RBP, RSI, RDI = range(8)

# Instructions are tuples, named as the constructors of crates/x86/specs/Instr.antt: ("alu", "ADD", 64, src, dst), ...
ALU = ["ADD", "OR", "AND", "SUB", "XOR", "CMP", "MOV", "TEST"]
SHIFT = ["SHL", "SHR", "SAR"]
UNARY = ["NEG", "MUL", "DIV"]
COND = ["JB", "JAE", "JE", "JNE", "JBE", "JA", "JL", "JGE", "JLE", "JG"]
SIZES = [8, 16, 32, 64]

M64 = 2**64


class Status:
    """CF, ZF, SF, OF."""

    def __init__(self, CF, ZF, SF, OF):
        self.CF, self.ZF, self.SF, self.OF = bool(CF), bool(ZF), bool(SF), bool(OF)

    def bits(self):
        return [int(self.CF), int(self.ZF), int(self.SF), int(self.OF)]


class Input:
    def __init__(self, allowed=True, value=0, back=0, regs=None, flags=None):
        self.allowed, self.value, self.back = allowed, value, back
        self.regs = regs if regs is not None else [0] * 16
        self.flags = flags if flags is not None else Status(0, 0, 0, 0)


def rd(w, g, r):
    return g[r] % 2**w


def puts(writes, g):
    g = list(g)
    for key, to in writes:
        g[key] = to
    return g


# words


def extended(w, x):
    return x if x < 2**31 else x + (2**w - 2**32)


def negative(w, a):
    return 2**w <= 2 * a


def odd(a):
    return a % 2 == 1


# ADD .. TEST


def result(o, w, a, b):
    return {
        "ADD": lambda: (a + b) % 2**w,
        "OR": lambda: a | b,
        "AND": lambda: a & b,
        "SUB": lambda: (a + 2**w - b) % 2**w,
        "XOR": lambda: a ^ b,
        "CMP": lambda: (a + 2**w - b) % 2**w,
        "MOV": lambda: b,
        "TEST": lambda: a & b,
    }[o]()


def alu_writes(o, d, v):
    return [] if o in ("CMP", "TEST") else [(d, v)]


def over_sum(w, a, b, r):
    return negative(w, a) == negative(w, b) and negative(w, a) != negative(w, r)


def over_difference(w, a, b, r):
    return negative(w, a) != negative(w, b) and negative(w, a) != negative(w, r)


def status(w, r, c, o):
    return Status(c, r == 0, negative(w, r), o)


def alu_status(o, w, a, b, f):
    r = result(o, w, a, b)
    if o == "ADD":
        return status(w, r, 2**w <= a + b, over_sum(w, a, b, r))
    if o in ("SUB", "CMP"):
        return status(w, r, a < b, over_difference(w, a, b, r))
    if o == "MOV":
        return f
    return status(w, r, False, False)


# shifts and rotation


def counted(w, c):
    return c % w


def in_cl(g):
    return g[RCX] % 2**8


def shifted(o, w, a, c):
    if o == "SHL":
        return a * 2**c % 2**w
    if o == "SHR":
        return a // 2**c
    return a // 2**c + ((2**w - 2 ** (w - c)) if negative(w, a) else 0)


def last_out(o, w, a, c):
    return odd(a // 2 ** (w - c)) if o == "SHL" else odd(a // 2 ** (c - 1))


def shift_over(o, w, a):
    if o == "SHL":
        return negative(w, shifted("SHL", w, a, 1)) != last_out("SHL", w, a, 1)
    if o == "SHR":
        return negative(w, a)
    return False


def shift_status(o, w, a, c, f, u):
    if c == 0:
        return f
    return status(w, shifted(o, w, a, c), last_out(o, w, a, c), shift_over(o, w, a) if c == 1 else u.flags.OF)


def rol_count(i):
    return i % 32


def rolled(a, c):
    return a * 2 ** (c % 16) % 2**16 + a % 2**16 // 2 ** (16 - c % 16)


def kept_above16(a, v):
    return a // 2**16 * 2**16 + v


def rol_status(a, c, f, u):
    r = rolled(a, c)
    if c == 0:
        return f
    return Status(odd(r), f.ZF, f.SF, ((2**15 <= r) != odd(r)) if c == 1 else u.flags.OF)


def swapped(n, x):
    return 0 if n == 0 else x % 256 * 256 ** (n - 1) + swapped(n - 1, x // 256)


# NEG, MUL, DIV


def opposite(w, a):
    return (2**w - a) % 2**w


def neg_status(w, a):
    return status(w, opposite(w, a), a != 0, 2 * a == 2**w)


def product(w, g, r):
    return rd(w, g, RAX) * rd(w, g, r)


def mul_status(w, h, u):
    return Status(h != 0, u.flags.ZF, u.flags.SF, h != 0)


def dividend(w, g):
    return rd(w, g, RDX) * 2**w + rd(w, g, RAX)


def divides(w, g, r):
    return rd(w, g, r) == 0 or 2**w <= dividend(w, g) // rd(w, g, r)


def down(x):
    return (x + (M64 - 8)) % M64


def up(x):
    return (x + 8) % M64


def unary_writes(o, w, g, r):
    if o == "NEG":
        return [(r, opposite(w, rd(w, g, r)))]
    if o == "MUL":
        return [(RAX, product(w, g, r) % 2**w), (RDX, product(w, g, r) // 2**w)]
    d = rd(w, g, r)
    q, m = divmod(dividend(w, g), d) if d else (0, dividend(w, g))  # the library's n / 0 is 0 and n % 0 is n; #DE is raised anyway
    return [(RAX, q), (RDX, m)]


def unary_status(o, w, g, r, u):
    if o == "NEG":
        return neg_status(w, rd(w, g, r))
    if o == "MUL":
        return mul_status(w, product(w, g, r) // 2**w, u)
    return u.flags


def writes_of(i, g, u):
    k, *a = i
    if k == "push":
        return [(RSP, down(g[RSP]))]
    if k == "pop":
        return [(RSP, up(g[RSP])), (a[0], u.value % 2**64)]
    if k == "alu":
        o, w, s, d = a
        return alu_writes(o, d, result(o, w, rd(w, g, d), rd(w, g, s)))
    if k == "alu_imm":
        o, w, d, x = a
        return alu_writes(o, d, result(o, w, rd(w, g, d), extended(w, x)))
    if k == "shift_imm":
        o, w, d, x = a
        return [(d, shifted(o, w, rd(w, g, d), counted(w, x)))]
    if k == "shift_cl":
        o, w, d = a
        return [(d, shifted(o, w, rd(w, g, d), counted(w, in_cl(g))))]
    if k == "unary":
        o, w, r = a
        return unary_writes(o, w, g, r)
    if k == "mov_imm":
        w, d, x = a
        return [(d, x % 2**w)]
    if k == "rol16":
        d, x = a
        return [(d, kept_above16(rd(64, g, d), rolled(rd(64, g, d), rol_count(x))))]
    if k == "bswap":
        w, d = a
        return [(d, swapped(w // 8, rd(w, g, d)))]
    if k == "load":
        z, b, d, x = a
        return [(d, u.value % 2**z)]
    assert k in ("store", "store_imm")
    return []


def status_of(i, g, f, u):
    k, *a = i
    if k == "alu":
        o, w, s, d = a
        return alu_status(o, w, rd(w, g, d), rd(w, g, s), f)
    if k == "alu_imm":
        o, w, d, x = a
        return alu_status(o, w, rd(w, g, d), extended(w, x), f)
    if k == "shift_imm":
        o, w, d, x = a
        return shift_status(o, w, rd(w, g, d), counted(w, x), f, u)
    if k == "shift_cl":
        o, w, d = a
        return shift_status(o, w, rd(w, g, d), counted(w, in_cl(g)), f, u)
    if k == "unary":
        o, w, r = a
        return unary_status(o, w, g, r, u)
    if k == "rol16":
        d, x = a
        return rol_status(rd(64, g, d), rol_count(x), f, u)
    return f


def faults_of(i, g):
    return i[0] == "unary" and i[1] == "DIV" and divides(i[2], g, i[3])


PLAIN = ("push", "pop", "alu", "alu_imm", "shift_imm", "shift_cl", "unary", "mov_imm", "rol16", "bswap", "load", "store", "store_imm")


def touches(i):
    return i[0] in ("push", "pop", "load", "store", "store_imm", "call_reg", "ret") or i[:2] == ("jump", "call")


def holds(c, f):
    return {
        "JB": f.CF,
        "JAE": not f.CF,
        "JE": f.ZF,
        "JNE": not f.ZF,
        "JBE": f.CF or f.ZF,
        "JA": not (f.CF or f.ZF),
        "JL": f.SF != f.OF,
        "JGE": f.SF == f.OF,
        "JLE": f.ZF or f.SF != f.OF,
        "JG": not (f.ZF or f.SF != f.OF),
    }[c]


def effect(i, g, f, u):
    """writes, flags, control"""
    if i[0] in PLAIN:
        return writes_of(i, g, u), status_of(i, g, f, u), ("raises",) if faults_of(i, g) else ("next",)
    if i[0] == "jump":
        _, j, x = i
        if j == "jmp":
            return [], f, ("goes", x)
        if j == "call":
            return [(RSP, down(g[RSP]))], f, ("calls", x)
        return [], f, ("goes", x) if holds(j, f) else ("next",)
    if i[0] == "call_reg":
        return [], f, ("helps",)
    return [(RSP, up(g[RSP]))], f, ("returns",)


def follow(e, x):
    return (e + extended(64, x)) % 2**64


class State:
    def __init__(self, pos, regs, flags, calls):
        self.pos, self.regs, self.flags, self.calls = pos, regs, flags, calls


def does(i, end, s, u):
    """One instruction that ends at `end`: the outcome's name, and the state where it has one."""
    if touches(i) and not u.allowed:
        return "faulted", None
    writes, flags, control = effect(i, s.regs, s.flags, u)
    g = puts(writes, s.regs)
    if control[0] == "next":
        return "running", State(end, g, flags, s.calls)
    if control[0] == "goes":
        return "running", State(follow(end, control[1]), g, flags, s.calls)
    if control[0] == "calls":
        return "running", State(follow(end, control[1]), g, flags, [(end, g[RSP])] + s.calls)
    if control[0] == "helps":
        h = [v % 2**64 for v in u.regs]
        h[RSP] = s.regs[RSP]
        return "running", State(end, h, u.flags, s.calls)
    if control[0] == "returns":
        if not s.calls:
            return "finished", State(u.back, g, flags, [])
        back, _ = s.calls[0]
        return ("running", State(back, g, flags, s.calls[1:])) if u.back == back else ("unbalanced", None)
    return "divided", None


# Which flags the manual leaves undefined: a real processor may give anything there.


def undefined(i, g):
    k, *a = i
    if k in ("shift_imm", "shift_cl"):
        c = counted(a[1], a[3] if k == "shift_imm" else in_cl(g))
        return {"OF"} if c > 1 else set()
    if k == "rol16":
        return {"OF"} if rol_count(a[1]) > 1 else set()
    if k == "unary":
        return {"NEG": set(), "MUL": {"ZF", "SF"}, "DIV": {"CF", "ZF", "SF", "OF"}}[a[0]]
    return set()
