"""The bytes of each instruction: what crates/x86/specs/Encode.antt says, in Python."""

ALU_OPCODE = {"ADD": 0x01, "OR": 0x09, "AND": 0x21, "SUB": 0x29, "XOR": 0x31, "CMP": 0x39, "MOV": 0x89, "TEST": 0x85}
ALU_IMM = {"ADD": (0x81, 0), "OR": (0x81, 1), "AND": (0x81, 4), "SUB": (0x81, 5), "XOR": (0x81, 6), "CMP": (0x81, 7), "MOV": (0xC7, 0), "TEST": (0xF7, 0)}
SHIFT = {"SHL": 4, "SHR": 5, "SAR": 7}
UNARY = {"NEG": 3, "MUL": 4, "DIV": 6}
COND = {"JB": 2, "JAE": 3, "JE": 4, "JNE": 5, "JBE": 6, "JA": 7, "JL": 12, "JGE": 13, "JLE": 14, "JG": 15}


def le(n, x):
    return list((x % 256**n).to_bytes(n, "little"))


def rex(w, r, b, always=False):
    x = 8 * w + 4 * (r // 8) + b // 8
    return [0x40 + x] if x or always else []


def modrm(m, r, b):
    return [64 * m + 8 * (r % 8) + b % 8]


def memory(r, b, x):
    if x == 0 and b % 8 != 5:
        return modrm(0, r, b)
    if (x + 128) % 2**32 < 256:
        return modrm(1, r, b) + [x % 256]
    return modrm(2, r, b) + le(4, x)


def encode(i):
    k, *a = i
    if k == "push":
        return rex(0, 0, a[0]) + [0x50 + a[0] % 8]
    if k == "pop":
        return rex(0, 0, a[0]) + [0x58 + a[0] % 8]
    if k == "alu":
        o, w, s, d = a
        return rex(w == 64, s, d) + [ALU_OPCODE[o]] + modrm(3, s, d)
    if k == "alu_imm":
        o, w, d, x = a
        code, ext = ALU_IMM[o]
        return rex(w == 64, 0, d) + [code] + modrm(3, ext, d) + le(4, x)
    if k == "shift_imm":
        o, w, d, x = a
        return rex(w == 64, 0, d) + [0xC1] + modrm(3, SHIFT[o], d) + [x]
    if k == "shift_cl":
        o, w, d = a
        return rex(w == 64, 0, d) + [0xD3] + modrm(3, SHIFT[o], d)
    if k == "unary":
        o, w, r = a
        return rex(w == 64, 0, r) + [0xF7] + modrm(3, UNARY[o], r)
    if k == "mov_imm":
        w, d, x = a
        return rex(w == 64, 0, d) + [0xB8 + d % 8] + le(w // 8, x)
    if k == "rol16":
        d, x = a
        return [0x66] + rex(0, 0, d) + [0xC1] + modrm(3, 0, d) + [x]
    if k == "bswap":
        w, d = a
        return rex(w == 64, 0, d) + [0x0F, 0xC8 + d % 8]
    if k == "load":
        z, b, d, x = a
        return rex(z == 64, d, b) + {8: [0x0F, 0xB6], 16: [0x0F, 0xB7], 32: [0x8B], 64: [0x8B]}[z] + memory(d, b, x)
    if k == "store":
        z, s, b, x = a
        return ([0x66] if z == 16 else []) + rex(z == 64, s, b, z == 8) + [0x88 if z == 8 else 0x89] + memory(s, b, x)
    if k == "store_imm":
        z, b, x, v = a
        return ([0x66] if z == 16 else []) + rex(z == 64, 0, b) + [0xC6 if z == 8 else 0xC7] + memory(0, b, x) + le(min(z, 32) // 8, v)
    if k == "jump":
        j, x = a
        return {"jmp": [0xE9], "call": [0xE8]}.get(j) + le(4, x) if j in ("jmp", "call") else [0x0F, 0x80 + COND[j]] + le(4, x)
    if k == "call_reg":
        return rex(0, 0, a[0]) + [0xFF] + modrm(3, 2, a[0])
    assert k == "ret"
    return [0xC3]
