/* Runs programs over packets as RFC 9669 and the request for `replay` say, for more packets than the interpreter in Python is quick enough for.
   reference.py asks it, and holds it to that interpreter. It knows nothing of captures, and takes programs that are not refused.

   Standard input, until it ends: a letter and what belongs to it. P: packets, in place of those before: their number, and of each the captured
   length, the original length and the captured bytes. R: a run: the number of a wrong reference (0 is the right one), the number of slots and
   the slots. Numbers have 32 bits and are little-endian.
   Standard output, for each R: of each packet a byte, how its run ended, and the 64 bits of r0; of each slot the 64 bits of how often it ran. */
#include <stdbool.h>
#include <stdint.h>
#include <stdio.h>
#include <stdlib.h>
#include <string.h>

enum { KEPT, DROPPED, STEP_LIMIT, ACCESS, NO_SLOT, GOES_ON };
enum { PACKET = 0x10000000, STACK = 0x20000000, STACK_SIZE = 512, LIMIT = 65536, SLOTS = 2048, LONGEST = 65535 };

/* What a wrong reference does otherwise; reference.py has the names. */
enum wrong {
    NOTHING, LIMIT_LAST, LIMIT_SHORT, LIMIT_BEHIND_SLOT, STACK_START, ACROSS_END, ORIGINAL_LENGTH, STOPPED_DROPPED, STACK_LEFT,
    SECOND_HALF_RUNS, ACCESS_UNCOUNTED, WIDE_COUNTED_TWICE, LOW_HALF_KEEPS,
};

struct slot {
    uint8_t opcode, registers;
    int16_t off;
    int32_t imm;
};

struct packet {
    uint32_t captured, original;
    uint8_t *bytes;
};

static struct {
    uint32_t count;
    struct slot slots[SLOTS];
    bool is_second[SLOTS + 1];
    uint64_t ran[SLOTS];
    enum wrong wrong;
} program;

static struct {
    uint64_t regs[16];
    uint32_t pc, length;
    uint8_t stack[STACK_SIZE], packet[LONGEST + 8]; /* room for a wrong reference that reads behind the packet */
} run;

static void stop(const char *why) {
    fprintf(stderr, "reference: %s\n", why);
    exit(2);
}

/* ---- arithmetic and jumps, section 4 ---------------------------------------------------------------------------------------------------- */

static uint64_t cut(uint64_t value, int bits) {
    return bits == 32 ? (uint32_t)value : value;
}

static int64_t with_sign(uint64_t value, int bits) {
    return bits == 32 ? (int32_t)value : (int64_t)value;
}

/* 4.1, on operands that are cut to the width. off is not looked at: the page does not. */
static uint64_t calculated(int code, uint64_t a, uint64_t b, int bits) {
    int count = b & (bits - 1);
    switch (code) {
    case 0x0: return a + b;
    case 0x1: return a - b;
    case 0x2: return a * b;
    case 0x3: return b ? a / b : 0;
    case 0x4: return a | b;
    case 0x5: return a & b;
    case 0x6: return a << count;
    case 0x7: return a >> count;
    case 0x8: return -a;
    case 0x9: return b ? a % b : a;
    case 0xa: return a ^ b;
    case 0xb: return b;
    case 0xc: return with_sign(a, bits) >> count;
    }
    stop("there is no such arithmetic");
    return 0;
}

/* 4.2, on a little-endian machine: opcode d4 cuts, dc reverses. */
static uint64_t swapped(bool to_big, uint64_t value, int width) {
    if (width == 16) return to_big ? __builtin_bswap16(value) : (uint16_t)value;
    if (width == 32) return to_big ? __builtin_bswap32(value) : (uint32_t)value;
    return to_big ? __builtin_bswap64(value) : value;
}

/* 4.3. */
static bool is_taken(int code, uint64_t a, uint64_t b, int bits) {
    int64_t signed_a = with_sign(a, bits), signed_b = with_sign(b, bits);
    switch (code) {
    case 0x1: return a == b;
    case 0x2: return a > b;
    case 0x3: return a >= b;
    case 0x4: return (a & b) != 0;
    case 0x5: return a != b;
    case 0x6: return signed_a > signed_b;
    case 0x7: return signed_a >= signed_b;
    case 0xa: return a < b;
    case 0xb: return a <= b;
    case 0xc: return signed_a < signed_b;
    case 0xd: return signed_a <= signed_b;
    }
    stop("there is no such jump");
    return false;
}

static uint64_t operand(const struct slot *s, int bits) {
    return cut(s->opcode & 8 ? run.regs[s->registers >> 4] : (uint64_t)(int64_t)s->imm, bits);
}

static void calculate(const struct slot *s, int bits) {
    uint64_t *dst = &run.regs[s->registers & 15];
    if (s->opcode >> 4 == 0xd) *dst = swapped(s->opcode & 8, *dst, s->imm);
    else *dst = cut(calculated(s->opcode >> 4, cut(*dst, bits), operand(s, bits), bits), bits);
}

static int jump(const struct slot *s, int bits) {
    int code = s->opcode >> 4;
    if (code == 0x9) return (program.wrong == LOW_HALF_KEEPS ? (uint32_t)run.regs[0] : run.regs[0]) ? KEPT : DROPPED;
    if (code == 0 || is_taken(code, cut(run.regs[s->registers & 15], bits), operand(s, bits), bits)) run.pc += s->off;
    return GOES_ON;
}

/* ---- memory, section 5 -------------------------------------------------------------------------------------------------------------------- */

/* Whether so many bytes lie in an area of `length` bytes, whose start they are `into` bytes behind, modulo 2^64. */
static bool lies_in(uint64_t into, uint32_t size, uint32_t length) {
    return size <= length && into <= length - size;
}

/* Null where the bytes lie neither wholly in the packet nor wholly in the stack. */
static uint8_t *place(uint64_t address, uint32_t size) {
    if (lies_in(address - PACKET, program.wrong == ACROSS_END ? 1 : size, run.length)) return run.packet + (address - PACKET);
    if (lies_in(address - STACK, size, STACK_SIZE)) return run.stack + (address - STACK);
    return NULL;
}

static int transfer(const struct slot *s, int class) {
    static const uint32_t sizes[] = {4, 2, 1, 8};
    uint32_t size = sizes[s->opcode >> 3 & 3];
    uint64_t dst = run.regs[s->registers & 15], src = run.regs[s->registers >> 4], value = 0;
    uint8_t *at = place((class == 1 ? src : dst) + (uint64_t)(int64_t)s->off, size);
    if (!at) return ACCESS;
    if (class == 1) {
        memcpy(&value, at, size); /* x86-64, where this runs, has the low byte first */
        run.regs[s->registers & 15] = value;
    } else {
        value = class == 2 ? (uint64_t)(int64_t)s->imm : src;
        memcpy(at, &value, size);
    }
    return GOES_ON;
}

static void load_wide(const struct slot *s) {
    run.regs[s->registers & 15] = (uint32_t)s->imm | (uint64_t)(uint32_t)s[1].imm << 32;
    run.pc++;
}

/* ---- a run -------------------------------------------------------------------------------------------------------------------------------- */

/* How the run ends with this slot, or that it goes on. */
static int step(void) {
    const struct slot *s = &program.slots[run.pc++];
    int class = s->opcode & 7;
    switch (class) {
    case 0: load_wide(s); return GOES_ON;
    case 1: case 2: case 3: return transfer(s, class);
    case 4: calculate(s, 32); return GOES_ON;
    case 5: return jump(s, 64);
    case 6: return jump(s, 32);
    default: calculate(s, 64); return GOES_ON;
    }
}

static bool is_slot(void) {
    return run.pc < program.count && (!program.is_second[run.pc] || program.wrong == SECOND_HALF_RUNS);
}

/* One slot, behind the test of the limit. */
static int turn(void) {
    if (!is_slot()) return NO_SLOT;
    uint32_t at = run.pc;
    if (program.is_second[at]) return run.pc++, GOES_ON;
    int end = step();
    program.ran[at] += end == ACCESS && program.wrong == ACCESS_UNCOUNTED ? 0 : 1;
    if (program.slots[at].opcode == 0x18 && program.wrong == WIDE_COUNTED_TWICE) program.ran[at]++;
    return end;
}

static int ended(void) {
    uint32_t limit = program.wrong == LIMIT_SHORT ? LIMIT - 1 : LIMIT;
    for (uint32_t steps = 0;; steps++) {
        if (steps == limit && program.wrong == LIMIT_BEHIND_SLOT && !is_slot()) return NO_SLOT;
        if (steps == limit && program.wrong != LIMIT_LAST) return STEP_LIMIT;
        int end = turn();
        if (end != GOES_ON) return end;
        if (steps == limit) return STEP_LIMIT;
    }
}

static void start(const struct packet *p) {
    memset(run.regs, 0, sizeof run.regs);
    if (program.wrong != STACK_LEFT) memset(run.stack, 0, sizeof run.stack);
    run.regs[1] = PACKET;
    run.regs[2] = program.wrong == ORIGINAL_LENGTH ? p->original : p->captured;
    run.regs[10] = program.wrong == STACK_START ? STACK : STACK + STACK_SIZE;
    run.pc = 0;
    run.length = p->captured;
    memcpy(run.packet, p->bytes, p->captured);
    memset(run.packet + p->captured, 0, 8);
}

/* ---- what is asked ------------------------------------------------------------------------------------------------------------------------ */

static void read_all(void *into, size_t length) {
    if (fread(into, 1, length, stdin) != length) stop("the input ends too soon");
}

static uint32_t read_number(void) {
    uint32_t number;
    read_all(&number, 4);
    return number;
}

static struct packet *read_packets(uint32_t *count) {
    *count = read_number();
    struct packet *packets = calloc(*count + 1, sizeof *packets);
    if (!packets) stop("there is not enough memory");
    for (uint32_t i = 0; i < *count; i++) {
        packets[i].captured = read_number();
        packets[i].original = read_number();
        if (packets[i].captured > LONGEST) stop("a packet is too long");
        packets[i].bytes = malloc(packets[i].captured + 1);
        if (!packets[i].bytes) stop("there is not enough memory");
        read_all(packets[i].bytes, packets[i].captured);
    }
    return packets;
}

static void free_packets(struct packet *packets, uint32_t count) {
    for (uint32_t i = 0; i < count; i++) free(packets[i].bytes);
    free(packets);
}

static void read_program(void) {
    program.wrong = read_number();
    program.count = read_number();
    if (program.count > SLOTS) stop("the program is too long");
    read_all(program.slots, 8 * program.count);
    for (uint32_t i = 0; i < program.count; i++)
        program.is_second[i + 1] = program.slots[i].opcode == 0x18 && !program.is_second[i];
    memset(program.ran, 0, sizeof program.ran);
    memset(run.stack, 0, sizeof run.stack);
}

static void answer(const struct packet *packets, uint32_t count) {
    for (uint32_t i = 0; i < count; i++) {
        start(&packets[i]);
        int end = ended();
        if (end > DROPPED && program.wrong == STOPPED_DROPPED) end = DROPPED;
        uint8_t said = end;
        fwrite(&said, 1, 1, stdout);
        fwrite(&run.regs[0], 8, 1, stdout);
    }
    fwrite(program.ran, 8, program.count, stdout);
    if (fflush(stdout)) stop("the output cannot be written");
}

int main(void) {
    struct packet *packets = NULL;
    uint32_t count = 0;
    for (int letter; (letter = getchar()) != EOF;) {
        if (letter == 'P') {
            free_packets(packets, count);
            packets = read_packets(&count);
        } else {
            read_program();
            answer(packets, count);
        }
    }
    return 0;
}
