/* What the jump tables say of a filter with a jump of every kind, and that ndakoleem.h lends each table in its place, and none where there is
 * none. Prints one line for each jump, without compact constants and with them, and `N passed, 0 failed`. */
#include <stdio.h>
#include <string.h>

#include "ndakoleem.h"

/* Eight slots: the wide load has two of them. */
static const uint8_t filter[] = {
    0x18, 0x00, 0, 0, 1, 0, 0, 0, /* 0: r0 = 1 ll */
    0x00, 0x00, 0, 0, 0, 0, 0, 0, /* 1: its second half */
    0x15, 0x01, 4, 0, 0, 0, 0, 0, /* 2: if r1 == 0 goto slot 7 */
    0x05, 0x00, 0, 0, 0, 0, 0, 0, /* 3: goto slot 4 */
    0x3f, 0x10, 0, 0, 0, 0, 0, 0, /* 4: r0 /= r1, or on to slot 5 */
    0x9f, 0x10, 0, 0, 0, 0, 0, 0, /* 5: r0 %= r1, or on to slot 6 */
    0x85, 0x10, 0, 0, 0, 0, 0, 0, /* 6: call slot 7 */
    0x95, 0x00, 0, 0, 0, 0, 0, 0  /* 7: exit */
};
enum { SLOTS = sizeof filter / 8 };

static const struct {
    uint32_t maker, kind, target;
} wanted[] = {
    {SLOTS, NDAKOLEEM_JUMP_PLAIN, NDAKOLEEM_EXIT_TARGET},
    {2, NDAKOLEEM_JUMP_CONDITIONAL, 7},
    {3, NDAKOLEEM_JUMP_PLAIN, 4},
    {4, NDAKOLEEM_JUMP_PLAIN, 5},
    {5, NDAKOLEEM_JUMP_CONDITIONAL, 6},
    {6, NDAKOLEEM_JUMP_LOCAL_CALL, 7},
};
enum { JUMPS = sizeof wanted / sizeof wanted[0] };

/* What is lent holds it beforehand, in every byte. */
static const uint32_t mark = 0xabababab;

static int passed, failed;

static void say(const char *what, bool good) {
    printf("%s%s\n", what, good ? "" : ", not as said");
    passed += good;
    failed += !good;
}

static struct ndakoleem_translation translated(const struct ndakoleem_buffers *lent, bool compact) {
    static struct ndakoleem_flags flags; /* off in C as in C++ */
    flags.compact = compact;
    return ndakoleem_translate_into(filter, sizeof filter, flags, NULL, 0, NULL, 0, lent);
}

/* "slot 2: conditional, to slot 7", and the same of the prologue and the exit. */
static void name_jump(char *to, size_t room, uint32_t maker, uint32_t kind, uint32_t target) {
    static const char *const kinds[] = {"", "conditional", "plain", "local call"};
    char from[32] = "the prologue", goal[32] = "the exit";
    if (maker != SLOTS) snprintf(from, sizeof from, "slot %u", maker);
    if (target != NDAKOLEEM_EXIT_TARGET) snprintf(goal, sizeof goal, "slot %u", target);
    snprintf(to, room, "%s: %s, to %s", from, kind <= NDAKOLEEM_JUMP_LOCAL_CALL ? kinds[kind] : "no kind", goal);
}

/* Whether a table has its marks from an entry on. */
static bool is_marked(const uint32_t *table, size_t from) {
    size_t at = from;
    while (at < NDAKOLEEM_TABLE_ENOUGH && table[at] == mark) at += 1;
    return at == NDAKOLEEM_TABLE_ENOUGH;
}

static bool are_marked(const struct ndakoleem_memory *memory, size_t entries, size_t jumps) {
    return is_marked(memory->locations, entries) && is_marked(memory->fields, jumps) && is_marked(memory->targets, jumps) &&
           is_marked(memory->kinds, jumps) && is_marked(memory->makers, jumps);
}

/* What a jump's field holds: the distance from its end to the target. */
static uint32_t distance(const struct ndakoleem_memory *memory, size_t at) {
    const uint8_t *field = memory->code + memory->fields[at];
    return field[0] | (uint32_t)field[1] << 8 | (uint32_t)field[2] << 16 | (uint32_t)field[3] << 24;
}

/* A jump to a slot goes to where the table of locations has it. */
static bool lands(const struct ndakoleem_memory *memory, size_t at) {
    uint32_t target = memory->targets[at];
    return target == NDAKOLEEM_EXIT_TARGET || memory->fields[at] + 4 + distance(memory, at) == memory->locations[target];
}

/* A caller who knows of three tables only. */
static void refuse_three(struct ndakoleem_memory *memory) {
    struct ndakoleem_buffers three = ndakoleem_lend(memory);
    three.kinds = three.makers = NULL;
    three.kinds_length = three.makers_length = 0;
    struct ndakoleem_translation done = translated(&three, false);
    say("three tables: refused", done.number == NDAKOLEEM_TABLE_TOO_SHORT && are_marked(memory, 0, 0));
}

/* A caller who asks for a map, and has no text for it. */
static void refuse_map(struct ndakoleem_memory *memory) {
    static struct ndakoleem_flags flags;
    struct ndakoleem_buffers five = ndakoleem_lend(memory);
    struct ndakoleem_mapped done =
        ndakoleem_translate_mapped_into(filter, sizeof filter, flags, NULL, 0, NULL, 0, &five, 0, NULL, 0);
    say("a map without a text: refused", done.number == NDAKOLEEM_TEXT_TOO_SHORT && are_marked(memory, 0, 0));
}

/* Gives the code's length. */
static size_t accept_five(struct ndakoleem_memory *memory, bool compact) {
    struct ndakoleem_buffers five = ndakoleem_lend(memory);
    struct ndakoleem_translation done = translated(&five, compact);
    bool good = done.number == NDAKOLEEM_ACCEPTED && done.jumps == JUMPS;
    say(compact ? "five tables, compact constants: accepted" : "five tables: accepted", good);
    for (size_t at = 0; at < JUMPS; at += 1) {
        uint32_t maker = memory->makers[at], kind = memory->kinds[at], target = memory->targets[at];
        char name[128];
        name_jump(name, sizeof name, maker, kind, target);
        say(name, maker == wanted[at].maker && kind == wanted[at].kind && target == wanted[at].target && lands(memory, at));
    }
    say("behind them: as it was", are_marked(memory, SLOTS + 1, JUMPS));
    return done.length;
}

int main(void) {
    static struct ndakoleem_memory memory;
    memset(&memory, mark & 0xff, sizeof memory);
    refuse_three(&memory);
    refuse_map(&memory);
    size_t longer = accept_five(&memory, false);
    memset(&memory, mark & 0xff, sizeof memory);
    say("compact constants: shorter code", accept_five(&memory, true) < longer);
    printf("%d passed, %d failed\n", passed, failed);
    return failed != 0;
}
