/* Ndakoleem for C: turns an eBPF filter into the x86-64 page that decides which packets are kept.
 *
 * Link with libndakoleem.a, which `./run libraries` writes to target/staticlib; a caller of ndakoleem_translate_mapped_1 or
 * ndakoleem_translate_mapped_into links libndakoleem_map.a too, and one of ndakoleem_run_packet_1 or
 * ndakoleem_run_packet_into libndakoleem_replay.a. Each takes memset from the C library, the
 * last memmove too. Each is x86-64 code, allocates nothing, keeps nothing between calls, calls nothing of the operating system, and can be
 * called by several threads at once, each with its own buffers.
 *
 *     static struct ndakoleem_memory memory;
 *     struct ndakoleem_buffers lent = ndakoleem_lend(&memory);
 *     struct ndakoleem_flags flags = {.use_mbuff = true};
 *     struct ndakoleem_translation done = ndakoleem_translate_into(program, program_length, flags, NULL, 0, NULL, 0, &lent);
 *
 * Mapping the page executable stays with the caller: give the code buffer's first `length` bytes to a mapping, then make that one readable
 * and executable. The code is called as `uint64_t f(uint8_t *mbuff, size_t mbuff_length, uint8_t *packet, size_t packet_length,
 * size_t packet_start_offset, size_t packet_end_offset)`, as rbpf calls it; with use_mbuff false only the packet's pointer is looked at. */
#ifndef NDAKOLEEM_H
#define NDAKOLEEM_H

#include <stdbool.h>
#include <stddef.h>
#include <stdint.h>

#ifdef __cplusplus
extern "C" {
#endif

/* Limits, and sizes that are enough. A program of n slots (its length in bytes divided by 8, rounded down) takes at most
 * NDAKOLEEM_SLOT_CODE_MAX * n + NDAKOLEEM_FRAME_CODE_MAX bytes of code, n + 1 locations and n + 1 jumps, and its map n + 2 lines, so smaller
 * buffers do for smaller programs. rust/test holds these numbers to the library's. */
enum {
    NDAKOLEEM_SLOTS_MAX = 2048,      /* slots of a program */
    NDAKOLEEM_PROGRAM_MAX = 8 * NDAKOLEEM_SLOTS_MAX, /* bytes */
    NDAKOLEEM_CODE_MIN = 4096,       /* bytes */
    NDAKOLEEM_CODE_MAX = 131072,     /* bytes */
    NDAKOLEEM_SLOT_CODE_MAX = 42,    /* bytes of a slot's code */
    NDAKOLEEM_FRAME_CODE_MAX = 65,   /* bytes of the prologue and the epilogue */
    /* bytes: no program's code is longer */
    NDAKOLEEM_CODE_LONGEST = NDAKOLEEM_SLOT_CODE_MAX * NDAKOLEEM_SLOTS_MAX + NDAKOLEEM_FRAME_CODE_MAX,
    /* bytes: that, rounded up to a multiple of NDAKOLEEM_CODE_MIN */
    NDAKOLEEM_CODE_ENOUGH = (NDAKOLEEM_CODE_LONGEST + NDAKOLEEM_CODE_MIN - 1) / NDAKOLEEM_CODE_MIN * NDAKOLEEM_CODE_MIN,
    NDAKOLEEM_TABLE_ENOUGH = NDAKOLEEM_SLOTS_MAX + 1, /* entries: as many as the longest program needs */
    NDAKOLEEM_MAP_LINE_MAX = 30,     /* bytes of a line of a map, its end among them */
    NDAKOLEEM_MAP_ENOUGH = NDAKOLEEM_MAP_LINE_MAX * (NDAKOLEEM_SLOTS_MAX + 2), /* bytes: every program's map finds room */
    NDAKOLEEM_HELPERS_MAX = 256,     /* helpers */
    NDAKOLEEM_EXIT_TARGET = 1000001, /* in the table of targets: a jump to the exit */
    NDAKOLEEM_PACKET_MAX = 65535,    /* bytes of a packet that is run on the model */
    NDAKOLEEM_STEPS_MAX = 65536,     /* slots that such a run takes */
    NDAKOLEEM_SENTENCE_ENOUGH = 200  /* bytes: every sentence of ndakoleem_sentence finds room */
};

/* An answer's number: 0, or why the program is refused. The slot that goes with it is said in brackets; slots count from 0.
 * docs/REFUSALS.md has what to do about each, and which one is given where there are several. */
enum ndakoleem_number {
    NDAKOLEEM_ACCEPTED = 0,          /* the code is finished                                                                              [0] */
    NDAKOLEEM_CODE_TOO_SHORT = 1,    /* the code buffer is shorter than NDAKOLEEM_CODE_MIN                                                [0] */
    NDAKOLEEM_CODE_TOO_LONG = 2,     /* the code buffer is longer than NDAKOLEEM_CODE_MAX                                                 [0] */
    NDAKOLEEM_PROGRAM_TOO_LONG = 3,  /* the program is longer than NDAKOLEEM_PROGRAM_MAX                                                  [0] */
    NDAKOLEEM_TABLE_TOO_SHORT = 4,   /* a table has fewer entries than the program has slots, and one                                     [0] */
    NDAKOLEEM_BAD_HELPERS = 5,       /* the helper lists differ in length, are longer than NDAKOLEEM_HELPERS_MAX, or hold an id twice     [0] */
    NDAKOLEEM_TORN_SLOT = 6,         /* a slot's eight bytes, or a wide load's second eight, are not all there      [that slot; a load's first] */
    NDAKOLEEM_BAD_REGISTER = 7,      /* a slot names a register above 10                                                          [that slot] */
    NDAKOLEEM_UNKNOWN_OPCODE = 8,    /* a slot's opcode byte is none that is known                                                [that slot] */
    NDAKOLEEM_UNIMPLEMENTED = 9,     /* a 32- or 64-bit atomic add, or a tail call: known, but not translated                     [that slot] */
    NDAKOLEEM_BAD_SWAP = 10,         /* BE, or in standard mode LE, of a width other than 16, 32 or 64 bits                       [that slot] */
    NDAKOLEEM_UNKNOWN_HELPER = 11,   /* a call of a helper whose id is not in the list                                            [that slot] */
    NDAKOLEEM_BAD_CALL = 12,         /* a call that is neither to a helper nor local (src 2 to 10)                                [that slot] */
    NDAKOLEEM_NO_ROOM = 13,          /* the code runs past the code buffer                  [the slot whose code does, or n for the epilogue] */
    NDAKOLEEM_BAD_TARGET = 14,       /* a jump or a local call goes to no slot of the program                    [the first such jump's slot] */
    NDAKOLEEM_BASE_TOO_HIGH = 15,    /* with a map: the base and the code's length make more than 2^64 - 1                                [0] */
    NDAKOLEEM_TEXT_TOO_SHORT = 16,   /* with a map: it does not fit into the text buffer                                                  [0] */
    NDAKOLEEM_NOT_PCAP = 17,         /* of a capture alone, which no function here reads: it does not begin with a libpcap header         [0] */
    NDAKOLEEM_BAD_RECORD = 18,       /* of a run: the packet is longer than NDAKOLEEM_PACKET_MAX, or than the buffer for its copy         [0] */
    NDAKOLEEM_NOT_MODELLED = 19      /* of a run: a call, or a packet load of the mode ABS or IND, which the model does not run   [that slot] */
};

/* How a packet's run on the model ended. */
enum ndakoleem_ended {
    NDAKOLEEM_ENDED_EXIT = 0,        /* by EXIT: r0 is the filter's answer, and the packet is kept where that is not 0 */
    NDAKOLEEM_ENDED_STEP_LIMIT = 1,  /* stopped, since NDAKOLEEM_STEPS_MAX slots were run */
    NDAKOLEEM_ENDED_ACCESS = 2,      /* stopped at a load or a store that lies neither wholly in the packet nor wholly in the stack */
    NDAKOLEEM_ENDED_NO_SLOT = 3      /* stopped behind the last slot, or at a wide load's second one: there is nothing to run */
};

/* What a jump is, in the table of kinds. */
enum ndakoleem_jump_kind {
    NDAKOLEEM_JUMP_CONDITIONAL = 1,  /* taken on a condition; so is the jump of MOD by register */
    NDAKOLEEM_JUMP_PLAIN = 2,        /* always taken; so are the prologue's jump and that of DIV by register */
    NDAKOLEEM_JUMP_LOCAL_CALL = 3    /* a call within the program */
};

/* Accepted: number and slot are 0, length is how many bytes of code there are, jumps how many entries each of the four jump tables has.
 * Refused: number and slot say why and where; length and jumps are 0. */
struct ndakoleem_translation {
    uint8_t number;
    size_t slot;
    size_t length;
    size_t jumps;
};

/* The same of a translation with a map. Accepted: text is how many bytes of the text buffer the map takes; refused: 0. */
struct ndakoleem_mapped {
    uint8_t number;
    size_t slot;
    size_t length;
    size_t jumps;
    size_t text;
};

/* A packet's run on the model. Run: number and slot are 0, ended is one of enum ndakoleem_ended, and r0 what the filter answers, or 0 where the
 * run was stopped; so the packet is kept where r0 is not 0. Refused: number and slot say why and where; ended and r0 are 0. */
struct ndakoleem_ran {
    uint8_t number;
    size_t slot;
    uint8_t ended;
    uint64_t r0;
};

/* Goes ahead of the name of a helper that is written in C: `static NDAKOLEEM_HELPER uint64_t name(uint64_t r1, ..)`.
 *
 * A page calls its helpers with the stack pointer 8 bytes off what the calling convention says, and inside every other local call it is right
 * (docs/DIFFERENCES.md, A19, as in rbpf). A function that does not know this crashes where it, or whatever it calls, keeps an SSE value on the
 * stack. With this the function aligns the stack for itself, wherever it is called from. A function that cannot be changed is called from one
 * that has it. */
#define NDAKOLEEM_HELPER __attribute__((force_align_arg_pointer))

/* Translates a program. Every argument gets an answer; nothing need be checked beforehand but that each pointer is good for its length (in
 * elements) and that no buffer that is written overlaps another. A pointer may not be null, even where its length is 0. The number in the name
 * rises with every change of the parameters, so that a caller that was built for others does not link.
 *
 *   program              the filter's bytecode
 *   use_mbuff            the filter gets a metadata buffer (mbuff) in r1, and not the packet itself
 *   update_data_ptr      with use_mbuff: the packet's start and end are stored in the mbuff, at the two offsets that the call gives
 *   standard             standard mode: a 32-bit MOV by register and a 32-bit MOD by zero clear the upper half of dst, and LE 16 and LE 32 keep
 *                        its low 16 and 32 bits alone, as RFC 9669 has it. Off, as in rbpf, this MOV copies 64 bits, this MOD and LE do nothing
 *   compact              compact constants: one of 0 to 4,294,967,295 takes 5 or 6 bytes to load, and not 7 or 10, so that a longer program
 *                        finds room in a page. The code does the same. Off, constants are loaded as in rbpf
 *   ids, addresses       the helpers that the program may call: a number and a function for each, side by side, no number twice
 *   code                 accepted: its first `length` bytes become the code
 *   locations            accepted: entries 0 to n become the position of each slot's code (0 for a wide load's second slot, and for entry n)
 *   fields, targets      accepted: their first `jumps` entries become the position of each jump's four-byte field, and the slot that it goes to
 *                        (NDAKOLEEM_EXIT_TARGET for the exit)
 *   kinds, makers        accepted: their first `jumps` entries become what each jump is (enum ndakoleem_jump_kind), and the slot whose code
 *                        holds it (n for the prologue's jump, which comes first)
 *
 * Everything behind these is left as it was; a refusal changes nothing at all. */
struct ndakoleem_translation ndakoleem_translate_4(
    const uint8_t *program, size_t program_length,
    bool use_mbuff, bool update_data_ptr, bool standard, bool compact,
    const uint32_t *ids, size_t ids_length,
    const uint64_t *addresses, size_t addresses_length,
    uint8_t *code, size_t code_length,
    uint32_t *locations, size_t locations_length,
    uint32_t *fields, size_t fields_length,
    uint32_t *targets, size_t targets_length,
    uint32_t *kinds, size_t kinds_length,
    uint32_t *makers, size_t makers_length);

/* Translates a program and makes the map of its page, by which perf names the slots. It stands in libndakoleem_map.a, of which a loader that
 * wants no map links nothing. It takes what ndakoleem_translate_4 takes, leaves what that leaves, and besides:
 *
 *   base                 the address of the page's first byte when it runs; so memory is mapped for the page before it is translated
 *   text                 accepted: its first `text` bytes become the map, which no zero byte ends
 *
 * A line of the map is `START SIZE NAME`: an address and a number of bytes, both in hexadecimal, and what stands there. That is the prologue,
 * then each slot that has bytes, a wide load by its first slot, then the epilogue; every line but the first begins where the one before ends.
 *
 *     7f1234567000 22 prologue
 *     7f1234567022 4 slot_0
 *     7f1234567026 d slot_1
 *
 * perf looks for it in the file /tmp/perf-PID.map, PID being the process that runs the page, whose user has to own the file; the kernel's
 * source has the format in tools/perf/Documentation/jit-interface.txt. Where a process has several pages, their maps stand one behind the other.
 *
 * NDAKOLEEM_BASE_TOO_HIGH comes behind every refusal of ndakoleem_translate_4, and NDAKOLEEM_TEXT_TOO_SHORT behind that. A refusal changes
 * nothing at all, the text neither. */
struct ndakoleem_mapped ndakoleem_translate_mapped_1(
    const uint8_t *program, size_t program_length,
    bool use_mbuff, bool update_data_ptr, bool standard, bool compact,
    const uint32_t *ids, size_t ids_length,
    const uint64_t *addresses, size_t addresses_length,
    uint8_t *code, size_t code_length,
    uint32_t *locations, size_t locations_length,
    uint32_t *fields, size_t fields_length,
    uint32_t *targets, size_t targets_length,
    uint32_t *kinds, size_t kinds_length,
    uint32_t *makers, size_t makers_length,
    uint64_t base,
    char *text, size_t text_length);

/* Runs a program on one packet, on the library's model of RFC 9669 in standard mode: what the bytecode itself says of the packet, with which a
 * loader can compare what a page says. It stands in libndakoleem_replay.a, of which a loader that compares nothing links nothing. As for
 * ndakoleem_translate_4, every argument gets an answer, and no pointer may be null.
 *
 *   program              the filter's bytecode
 *   ids, addresses       the helpers that its page may call. The model calls none: a program with a call whose id is listed is refused with
 *                        NDAKOLEEM_NOT_MODELLED, and not with NDAKOLEEM_UNKNOWN_HELPER
 *   page                 the length of the code buffer that the program is translated into: the refusals are those of such a translation, in
 *                        standard mode and without a metadata buffer, then NDAKOLEEM_NOT_MODELLED, then NDAKOLEEM_BAD_RECORD
 *   packet               is read alone
 *   copy                 run: at its head stands the packet as the run left it; a packet into which nothing was stored is there unchanged
 *   counts               at least as many entries as the program has slots, and one. Run: each slot that ran added one to its entry for
 *                        each time that it ran, an access that stopped the run included; so the counts of several packets add up
 *
 * Everything else is left as it was; a refusal changes nothing at all.
 *
 * A run starts afresh: r1 is the packet's address, which is 268435456 on the model, r2 its length, r10 the end of a stack of 512 zero bytes at
 * 536870912, and every other register 0. A page's caller has to see to the same where it compares: without a metadata buffer r2 is the second
 * argument of the page's call, so the packet's length is passed there too, `f(NULL, packet_length, packet, packet_length, 0, 0)`. Nothing sets
 * the page's other registers and its stack (docs/DIFFERENCES.md, A34): a filter that reads what it has not written, or that makes a verdict of
 * an address, differs without a fault of either. Where the model stops, the page goes on with whatever lies there. */
struct ndakoleem_ran ndakoleem_run_packet_1(
    const uint8_t *program, size_t program_length,
    const uint32_t *ids, size_t ids_length,
    const uint64_t *addresses, size_t addresses_length,
    size_t page,
    const uint8_t *packet, size_t packet_length,
    uint8_t *copy, size_t copy_length,
    uint64_t *counts, size_t counts_length);

/* A refusal in words, for an operator: "slot 7: a jump to slot 90, the program ends at 40 (refusal 14)". The program, and the answer's number and
 * slot, go in; the sentence goes to the start of `out`, cut where it does not fit and not ended by a zero, and its length is given back. */
size_t ndakoleem_sentence(
    const uint8_t *program, size_t program_length,
    uint8_t number, size_t slot,
    char *out, size_t out_length);

/* The flags of a translation; ndakoleem_translate_4 explains each. A caller names those that it sets, as in
 * `(struct ndakoleem_flags){.use_mbuff = true}`: the others are off, and so is every one that is added later. In C++ they are set one by one,
 * as in `ndakoleem_flags flags = {}; flags.use_mbuff = true;`, or by a list in braces. */
struct ndakoleem_flags {
    bool use_mbuff;
    bool update_data_ptr;
    bool standard;
    bool compact;
};

/* What is lent to a translation and written by it; ndakoleem_translate_4 explains each. Lengths are in elements. */
struct ndakoleem_buffers {
    uint8_t *code;
    size_t code_length;
    uint32_t *locations;
    size_t locations_length;
    uint32_t *fields;
    size_t fields_length;
    uint32_t *targets;
    size_t targets_length;
    uint32_t *kinds;
    size_t kinds_length;
    uint32_t *makers;
    size_t makers_length;
};

/* Memory in which every program finds room. It is more than 100 KiB: too much for a small stack. */
struct ndakoleem_memory {
    uint8_t code[NDAKOLEEM_CODE_ENOUGH];
    uint32_t locations[NDAKOLEEM_TABLE_ENOUGH];
    uint32_t fields[NDAKOLEEM_TABLE_ENOUGH];
    uint32_t targets[NDAKOLEEM_TABLE_ENOUGH];
    uint32_t kinds[NDAKOLEEM_TABLE_ENOUGH];
    uint32_t makers[NDAKOLEEM_TABLE_ENOUGH];
};

/* All of that memory. A caller who lends it so has no line to change when a table is added. */
static inline struct ndakoleem_buffers ndakoleem_lend(struct ndakoleem_memory *memory) {
    struct ndakoleem_buffers lent;
    lent.code = memory->code;
    lent.code_length = NDAKOLEEM_CODE_ENOUGH;
    lent.locations = memory->locations;
    lent.locations_length = NDAKOLEEM_TABLE_ENOUGH;
    lent.fields = memory->fields;
    lent.fields_length = NDAKOLEEM_TABLE_ENOUGH;
    lent.targets = memory->targets;
    lent.targets_length = NDAKOLEEM_TABLE_ENOUGH;
    lent.kinds = memory->kinds;
    lent.kinds_length = NDAKOLEEM_TABLE_ENOUGH;
    lent.makers = memory->makers;
    lent.makers_length = NDAKOLEEM_TABLE_ENOUGH;
    return lent;
}

/* What is lent, with an entry that stands for the tables that are null. */
static inline struct ndakoleem_buffers ndakoleem_without_null(const struct ndakoleem_buffers *lent, uint32_t *no_entry) {
    struct ndakoleem_buffers given = *lent;
    if (given.locations == NULL) given.locations = no_entry;
    if (given.fields == NULL) given.fields = no_entry;
    if (given.targets == NULL) given.targets = no_entry;
    if (given.kinds == NULL) given.kinds = no_entry;
    if (given.makers == NULL) given.makers = no_entry;
    return given;
}

/* ndakoleem_translate_4, with the flags in one struct and the buffers in another. The helper lists and the tables may be null where their
 * lengths are 0: a caller who does not know of a table, and leaves it so, gets NDAKOLEEM_TABLE_TOO_SHORT. */
static inline struct ndakoleem_translation ndakoleem_translate_into(
    const uint8_t *program, size_t program_length,
    struct ndakoleem_flags flags,
    const uint32_t *ids, size_t ids_length,
    const uint64_t *addresses, size_t addresses_length,
    const struct ndakoleem_buffers *lent) {
    static const uint32_t no_id = 0;
    static const uint64_t no_address = 0;
    uint32_t no_entry = 0;
    struct ndakoleem_buffers given = ndakoleem_without_null(lent, &no_entry);
    return ndakoleem_translate_4(
        program, program_length, flags.use_mbuff, flags.update_data_ptr, flags.standard, flags.compact,
        ids == NULL ? &no_id : ids, ids_length,
        addresses == NULL ? &no_address : addresses, addresses_length,
        given.code, given.code_length,
        given.locations, given.locations_length,
        given.fields, given.fields_length,
        given.targets, given.targets_length,
        given.kinds, given.kinds_length,
        given.makers, given.makers_length);
}

/* ndakoleem_translate_mapped_1 in the same way; the text may be null too where its length is 0. */
static inline struct ndakoleem_mapped ndakoleem_translate_mapped_into(
    const uint8_t *program, size_t program_length,
    struct ndakoleem_flags flags,
    const uint32_t *ids, size_t ids_length,
    const uint64_t *addresses, size_t addresses_length,
    const struct ndakoleem_buffers *lent,
    uint64_t base,
    char *text, size_t text_length) {
    static const uint32_t no_id = 0;
    static const uint64_t no_address = 0;
    uint32_t no_entry = 0;
    char no_text = 0;
    struct ndakoleem_buffers given = ndakoleem_without_null(lent, &no_entry);
    return ndakoleem_translate_mapped_1(
        program, program_length, flags.use_mbuff, flags.update_data_ptr, flags.standard, flags.compact,
        ids == NULL ? &no_id : ids, ids_length,
        addresses == NULL ? &no_address : addresses, addresses_length,
        given.code, given.code_length,
        given.locations, given.locations_length,
        given.fields, given.fields_length,
        given.targets, given.targets_length,
        given.kinds, given.kinds_length,
        given.makers, given.makers_length,
        base,
        text == NULL ? &no_text : text, text_length);
}

/* What is lent to runs and written by them; ndakoleem_run_packet_1 explains each. Every packet and every program finds room in it. The counts
 * are zero ahead of the first packet. It is more than 80 KiB: too much for a small stack. */
struct ndakoleem_run_memory {
    uint8_t copy[NDAKOLEEM_PACKET_MAX];
    uint64_t counts[NDAKOLEEM_TABLE_ENOUGH];
};

/* ndakoleem_run_packet_1 on that memory, for a page in which every program finds room. The helper lists and the packet may be null where their
 * lengths are 0. */
static inline struct ndakoleem_ran ndakoleem_run_packet_into(
    const uint8_t *program, size_t program_length,
    const uint32_t *ids, size_t ids_length,
    const uint64_t *addresses, size_t addresses_length,
    const uint8_t *packet, size_t packet_length,
    struct ndakoleem_run_memory *memory) {
    static const uint32_t no_id = 0;
    static const uint64_t no_address = 0;
    static const uint8_t no_byte = 0;
    return ndakoleem_run_packet_1(
        program, program_length,
        ids == NULL ? &no_id : ids, ids_length,
        addresses == NULL ? &no_address : addresses, addresses_length,
        NDAKOLEEM_CODE_ENOUGH,
        packet == NULL ? &no_byte : packet, packet_length,
        memory->copy, NDAKOLEEM_PACKET_MAX,
        memory->counts, NDAKOLEEM_TABLE_ENOUGH);
}

#ifdef __cplusplus
}
#endif

#endif
