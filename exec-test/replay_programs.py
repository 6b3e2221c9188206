"""Programs made for `replay`, part of exec-test/replay: the borders of memory, of the step limit and of the slots, what a run starts with, each
instruction on boundary values, and programs by lot. Each report is held to the reference, and on all but the longest runs the reference in C to
the interpreter.

Where all of r0 is to be seen the program is pinned: it compares r0 with what the reference says, and has to drop the packet.
"""

import itertools
import random

import opcodes
from interpreter import M64
from modes import STANDARD
from names import CONDITIONS
from reference import PACKET, STACK, STACK_SIZE, STEP_LIMIT, by_interpreter, check
from replayed import Case, File
from slots import ADD_K, ADD_X, EXIT, JA, JNE_K, LDX, MOV_K, MOV_X, MUL_K, SIZES, ST, STX, SUB_K, compared, slot, wide
from traffic import capture, whole

SEED = 9669
LENGTHS = (0, 1, 2, 3, 4, 5, 7, 8, 9, 15, 16, 17, 64, 1514, 65535)
PAGE = 131072
KEEP = slot(MOV_K, 0, imm=1) + slot(EXIT)
DROP = slot(MOV_K, 0) + slot(EXIT)
MULTIPLIER = 31

rng = random.Random(SEED)
PACKETS = [rng.randbytes(length) for length in LENGTHS]
CAPTURE = File(capture([(packet, len(packet) + n % 3) for n, packet in enumerate(PACKETS)]))
FEW = File(capture([(packet, len(packet) + 1) for packet in PACKETS[6:13]]))


# ---- memory ----------------------------------------------------------------------------------------------------------------------------


def touch(kind, size, base, off):
    """One access, and then EXIT with a number in r0 that is mostly not 0."""
    opcode = kind | SIZES[size]
    if kind == LDX:
        return slot(opcode, 0, base, off) + slot(EXIT)
    return slot(opcode, base, 2, off, -2) + slot(LDX | SIZES[size], 0, base, off) + slot(EXIT)


def area(name, is_end):
    """r6 is the start or the end of the packet or of the stack."""
    if name == "packet":
        return slot(MOV_X, 6, 1) + (slot(ADD_X, 6, 2) if is_end else b"")
    return slot(MOV_X, 6, 10) + (b"" if is_end else slot(ADD_K, 6, imm=-STACK_SIZE))


def at_borders():
    for kind, size, name in itertools.product((LDX, ST, STX), (1, 2, 4, 8), ("packet", "stack")):
        for is_end, offs in ((False, (-size, -1, 0, 1)), (True, (-size - 1, -size, -size + 1, -1, 0))):
            for off in sorted(set(offs)):
                name_of = "%d bytes at the %s's %s%+d, opcode %#x" % (size, name, "end" if is_end else "start", off, kind | SIZES[size])
                yield name_of, area(name, is_end) + touch(kind, size, 6, off), CAPTURE


def far_away():
    """Addresses are sums modulo 2^64; off counts by its sign."""
    bases = [(0, 0), (0, -1), (M64, 1), (M64, 0), (M64 - 7, 0), (M64 - 3, 4), (2**63, 0), (2**32 + PACKET, 0), (2**32 + STACK, 8)]
    bases += [(start - off & M64, off) for start in (PACKET, STACK) for off in (32767, -32768, 1, -1)]
    bases += [(PACKET - 4, 3), (STACK - 4, 3), (STACK + STACK_SIZE, -1), (STACK + STACK_SIZE - 32767, 32766), (M64 - 32766, 32767)]
    for (base, off), size in itertools.product(bases, (1, 8)):
        yield "%d bytes at %#x%+d" % (size, base, off), wide(6, base) + touch(LDX, size, 6, off), FEW


def hashed(name):
    """r0 is made of all bytes of the packet or of the stack."""
    loop = slot(MUL_K, 0, imm=MULTIPLIER) + slot(LDX | SIZES[1], 8, 6) + slot(ADD_X, 0, 8) + slot(ADD_K, 6, imm=1)
    return area(name, True) + slot(MOV_X, 7, 6) + area(name, False) + slot(MOV_K, 0) + loop + slot(0x5D, 6, 7, -5) + slot(EXIT)


def stores():
    """All bytes behind a store, of the packet and of the stack; the places are odd and even ones."""
    for kind, size, name, off in itertools.product((ST, STX), (1, 2, 4, 8), ("packet", "stack"), (0, 1, 5, 30)):
        store = slot(kind | SIZES[size], 6, 3, off, -0x12345678)
        program = wide(3, 0x8182838485868788) + area(name, False) + store + hashed(name)
        yield "all of the %s behind a store of %d bytes at %d" % (name, size, off), program, PACKETS[12]


def kept_over():
    """What one packet leaves behind, no other sees: on the stack, in registers, and in the packet."""
    stain = slot(ST | SIZES[8], 10, off=-STACK_SIZE, imm=7) + slot(ST | SIZES[1], 10, off=-1, imm=7)
    look = slot(LDX | SIZES[8], 0, 10, -STACK_SIZE) + slot(LDX | SIZES[1], 3, 10, -1) + slot(ADD_X, 0, 3)
    yield "the stack is zero for each packet", look + stain + slot(EXIT), CAPTURE
    yield "registers are zero for each packet", b"".join(slot(ADD_X, 0, r) for r in range(3, 10)) + b"".join(
        slot(MOV_K, r, imm=r + 1) for r in range(3, 10)) + slot(EXIT), CAPTURE
    change = slot(ST | SIZES[1], 1, imm=0x55) + slot(LDX | SIZES[1], 3, 1) + slot(JNE_K, 3, off=2, imm=0x55)
    yield "a store is seen by the same run, and written nowhere", change + KEEP + DROP, FEW


# ---- slots -----------------------------------------------------------------------------------------------------------------------------


def looping(slots, end):
    """So many slots run, of any number above 6, and then what is at the end."""
    turns, rest = divmod(slots - 1, 2)
    return slot(MOV_K, 6, imm=turns - 1) + slot(MOV_K, 0, imm=1) * (1 + rest) + slot(SUB_K, 6, imm=1) + slot(JNE_K, 6, off=-2) + end


def limits():
    """The last slot that may run is the 65,536th."""
    outside, second = slot(LDX, 0, 10), slot(JA, off=1) + wide(0, 1) + slot(EXIT)
    ends = {"EXIT": slot(EXIT), "an access outside": outside + slot(EXIT), "no slot": b"", "a wide load": wide(0, 0) + slot(EXIT),
            "a second half": second, "a store": slot(STX, 10, 0, -8) + slot(EXIT), "a jump to no slot": slot(JA, off=1) + slot(EXIT)}
    for (name, end), left in itertools.product(ends.items(), (3, 2, 1, 0, -1)):
        yield "%s behind %d slots" % (name, STEP_LIMIT - left), looping(STEP_LIMIT - left, end), FEW
    yield "a jump to itself", slot(JA, off=-1), FEW


def ends():
    """Slot n and second halves, by a fall and by each kind of jump; wide loads whose second halves look like wide loads."""
    load = wide(0, 5)
    yield "the empty program", b"", CAPTURE
    yield "a fall to slot n", slot(MOV_K, 0, imm=1), CAPTURE
    yield "a wide load, and slot n", load, CAPTURE
    yield "JA to slot n", slot(JA), CAPTURE
    yield "JA to slot n, over others", slot(JA, off=2) + KEEP, CAPTURE
    yield "JA to a second half", slot(JA, off=1) + load + slot(EXIT), CAPTURE
    yield "JA back to a second half", load + slot(JA, off=-2) + slot(EXIT), CAPTURE
    alike = slot(0x18, 3, imm=1) * 4
    yield "second halves that look like wide loads", alike + KEEP, CAPTURE
    for off, name in ((0, "a wide load"), (1, "a second half"), (2, "a wide load"), (3, "a second half"), (4, "an instruction")):
        yield "JA to %s among them" % name, slot(JA, off=off) + alike + KEEP, CAPTURE
    yield "a second half that looks like a load from classic BPF", slot(0x18) + slot(0x30, imm=3) + KEEP, CAPTURE
    for opcode in (code << 4 | group for code in CONDITIONS for group in (5, 6)):
        for off, where in ((3, "slot n"), (0, "the next slot")):
            yield "opcode %#x to %s" % (opcode, where), slot(opcode, 2, off=off, imm=8) + KEEP[:8] + DROP, CAPTURE
        yield "opcode %#x to a second half" % opcode, slot(opcode, 2, off=1, imm=8) + load + slot(EXIT), CAPTURE


def started():
    """What the registers are at first: pinned, for each register and packet."""
    for register, packet in itertools.product(range(11), (PACKETS[0], PACKETS[9], PACKETS[14])):
        yield "r%d at first, %d bytes" % (register, len(packet)), slot(MOV_X, 0, register) + slot(EXIT), packet
    yield "r0 at first", slot(EXIT), CAPTURE
    for value in (1, 2**31, 2**32, 2**63, M64, 0):
        yield "r0 is %#x" % value, wide(0, value) + slot(EXIT), CAPTURE


def unused_fields():
    """off of arithmetic, and src of a wide load, which mean more in RFC 9669 and nothing to the page; imm by register; and fields that mean
    nothing."""
    values = wide(0, 0xFFFFFFFFFFFFFF85) + wide(2, 0x8000000000000007)
    for opcode, off in itertools.product((0x37, 0x3F, 0x34, 0x3C, 0x97, 0x9F, 0x94, 0x9C), (0, 1, -1, 8)):
        yield "opcode %#x with off %d" % (opcode, off), values + slot(opcode, 0, 2 if opcode & 8 else 0, off, 3) + slot(EXIT), PACKETS[9]
    for opcode, off in itertools.product((0xBF, 0xBC, 0xB7, 0xB4, 0x07, 0x0C, 0x87, 0xD4, 0xDC), (8, 16, 32, 3)):
        src = 2 if opcode & 8 and opcode < 0xD0 else 0
        yield "opcode %#x with off %d" % (opcode, off), values + slot(opcode, 0, src, off, 32) + slot(EXIT), PACKETS[9]
    for src in range(11):
        yield "a wide load with src %d" % src, wide(0, 0x8000000180000002, src) + slot(EXIT), PACKETS[9]
    for opcode in (0x2F, 0x2C, 0x3F, 0x9F, 0x0F, 0x1F, 0x6F):
        yield "opcode %#x with imm" % opcode, values + slot(opcode, 0, 2, 0, 77) + slot(EXIT), PACKETS[9]
    yield "EXIT with every field", slot(MOV_K, 0, imm=3) + slot(EXIT, 10, 10, -1, -1), CAPTURE
    yield "JA with every field", slot(JA, 10, 10, 0, -1) + KEEP, CAPTURE
    yield "a second half with every field", slot(0x18, 0, imm=3) + slot(0xFF, 15, 15, -1, 0) + slot(EXIT), CAPTURE


# ---- programs by lot -------------------------------------------------------------------------------------------------------------------


def some_slot(at, count):
    """A slot that the translator takes, of `count`; jumps go anywhere, accesses mostly near the packet or the stack."""
    dst, src, imm = rng.randrange(10), rng.randrange(11), rng.choice((0, 1, -1, 8, 64, rng.getrandbits(32) - 2**31))
    kind = rng.randrange(10)
    if kind < 4:
        code, source, group = rng.choice([c for c in range(13) if c != 8]), rng.choice((0, 8)), rng.choice((4, 7))
        return slot(code << 4 | source | group, dst, src, rng.choice((0, 0, 1)), imm)
    if kind == 4:
        return slot(rng.choice((0x84, 0x87, 0xD4, 0xDC)), dst, imm=rng.choice((16, 32, 64)))
    if kind < 7:
        opcode, base = rng.choice((LDX, ST, STX)) | rng.choice(list(SIZES.values())), rng.choice((1, 10, 10, 1, rng.randrange(11)))
        off = rng.randrange(-STACK_SIZE - 2, 1) if base == 10 else rng.choice((-1, 0, 1, 7, 8, 60, 63))
        return slot(opcode, *((dst, base) if opcode & 7 == 1 else (base, src)), off, imm)
    off = rng.randrange(-at - 1, count - at) if rng.random() < 0.3 else rng.randrange(0, count - at)
    if kind < 9:
        return slot(rng.choice(list(CONDITIONS)) << 4 | rng.choice((0, 8)) | rng.choice((5, 6)), dst, src, off, imm)
    return rng.choice((slot(JA, off=off), slot(EXIT), slot(EXIT)))


def some_program():
    count, out = rng.randrange(1, 40), []
    while len(out) < count:
        if rng.random() < 0.05 and len(out) + 1 < count:
            out += [slot(0x18, rng.randrange(10), imm=rng.choice((0, PACKET, STACK + 8))), slot(0, imm=rng.choice((0, 0, 1)))]
        else:
            out.append(some_slot(len(out), count))
    return b"".join(out)


def by_lot(count):
    file = File(capture(whole([PACKETS[n] for n in (0, 4, 8, 11, 12)])))
    return (("program %d by lot" % n, some_program(), file) for n in range(count))


# ---- the part --------------------------------------------------------------------------------------------------------------------------


def pinned(program, packet):
    """The program, held to its r0 on the packet; as it is where its run does not end with EXIT."""
    report = by_interpreter(program, [packet])
    return compared(program, report.results[0]) if report.ends[0] < 2 else program


def instructions(every):
    """Those of exec-test/opcodes, but for the calls; each is pinned. What the translator refuses is a swap of another width."""
    differences = STANDARD.differences(opcodes.EXPECTED.values())
    for number, each in enumerate([case for case in opcodes.all_cases() if not case.helpers][::every]):
        meant = opcodes.interpreted(each, differences)
        refusal = tuple(map(int, meant.split(":")[1:])) if isinstance(meant, str) else None
        program = each.program if refusal else compared(each.program, meant)
        yield Case("%s, program %d" % (each.kind, number), program, FEW, PAGE, refusal=refusal)


def cases(parts, is_checked=True):
    """Cases of (name, program, capture or packet); what comes with a packet alone is pinned."""
    for number, (name, program, given) in enumerate(itertools.chain.from_iterable(parts)):
        if isinstance(given, bytes):
            program, given = pinned(program, given), File(capture([(given, len(given) + 1)]))
        if is_checked:
            check(program, given.read.packets)
        yield Case(name, program, given, PAGE, pipe=number % 2, write=number % 3 == 0)


def made():
    return cases((at_borders(), far_away(), stores(), kept_over(), ends(), started(), unused_fields()))


def at_limit():
    """Long runs, which the interpreter takes a second each for: it is asked for few of them."""
    return cases((limits(),), is_checked=False)


def tell(tally, what, chosen):
    passed, failed = tally.passed, tally.failed
    for _ in tally.held(chosen):
        pass
    print("%s: %d programs, %d failed" % (what, tally.passed + tally.failed - passed - failed, tally.failed - failed), flush=True)


def run(tally, by_lot_count, every):
    """With so many programs by lot, and one in so many instructions."""
    for case in list(at_limit())[::9]:
        check(case.program, case.capture.read.packets[:1])
    tell(tally, "borders, ends and starts", made())
    tell(tally, "the step limit", at_limit())
    tell(tally, "instructions on boundary values", instructions(every))
    tell(tally, "programs by lot", cases((by_lot(by_lot_count),), is_checked=False))
