/* How a page enters its helpers, and that NDAKOLEEM_HELPER makes it right: three filters call a helper, outside local calls, inside one and
 * inside two of them, by an address that is loaded as in rbpf, and by a compact constant. Prints one line for each filter, helper and kind of
 * constants, and `N passed, 0 failed`. */
#include <stdio.h>
#include <stdlib.h>
#include <string.h>
#include <sys/mman.h>

#include "ndakoleem.h"

typedef uint64_t (*page_function)(void *, size_t, uint8_t *, size_t, size_t, size_t);

/* RSP at its own entry. The calling convention has it at 8 modulo 16 there: 16 at the call, which pushes 8. */
uint64_t stack_pointer(void);
__asm__(".text\nstack_pointer:\n    mov %rsp, %rax\n    ret\n");

/* Stores to the stack with MOVAPS, which wants 16 bytes' alignment, and gives RSP at the entry of a function that it calls. The place, the
 * stored value and the arguments are looked at: anything wrong gives 1, which is no stack pointer. An emulator may let MOVAPS pass anywhere. */
static inline __attribute__((always_inline)) uint64_t used(uint64_t a, uint64_t b, uint64_t c, uint64_t d, uint64_t e, int stores) {
    __attribute__((aligned(16))) uint64_t kept[2] = {a, b};
    if (stores) {
        uint64_t place;
        __asm__ volatile("lea %1, %0\n\tmovaps %1, %%xmm7\n\tmovaps %%xmm7, %1" : "=&r"(place), "+m"(kept) : : "xmm7");
        if (place % 16 != 0) return 1;
    }
    uint64_t inside = stack_pointer();
    __asm__ volatile("" : "+m"(kept));
    return kept[0] == 1 && kept[1] == 2 && c == 3 && d == 4 && e == 5 ? inside : 1;
}

static NDAKOLEEM_HELPER uint64_t aligned(uint64_t a, uint64_t b, uint64_t c, uint64_t d, uint64_t e) {
    return used(a, b, c, d, e, 1);
}

/* As C compiles it: this one must not store, since it would crash. */
static uint64_t plain(uint64_t a, uint64_t b, uint64_t c, uint64_t d, uint64_t e) {
    return used(a, b, c, d, e, 0);
}

/* r1 to r5 are set to 1 to 5, then comes the helper's call, in the innermost of so many functions. */
static size_t filter(uint8_t *to, int local_calls) {
    static const uint8_t local[] = {0x85, 0x10, 0, 0, 1, 0, 0, 0, 0x95, 0, 0, 0, 0, 0, 0, 0};
    static const uint8_t helper[] = {0x85, 0, 0, 0, 7, 0, 0, 0, 0x95, 0, 0, 0, 0, 0, 0, 0};
    size_t length = 0;
    for (int at = 0; at < local_calls; at += 1, length += sizeof local) memcpy(to + length, local, sizeof local);
    for (uint8_t number = 1; number <= 5; number += 1, length += 8) {
        const uint8_t set[] = {0xb7, number, 0, 0, number, 0, 0, 0};
        memcpy(to + length, set, 8);
    }
    memcpy(to + length, helper, sizeof helper);
    return length + sizeof helper;
}

static uint64_t called(void *helper, int local_calls, bool compact) {
    static struct ndakoleem_memory memory;
    struct ndakoleem_buffers lent = ndakoleem_lend(&memory);
    uint8_t program[128];
    const uint32_t ids[] = {7};
    const uint64_t addresses[] = {(uint64_t)helper};
    size_t length = filter(program, local_calls);
    struct ndakoleem_flags flags = {.compact = compact};
    struct ndakoleem_translation done = ndakoleem_translate_into(program, length, flags, ids, 1, addresses, 1, &lent);
    void *page = mmap(NULL, NDAKOLEEM_CODE_MIN, PROT_READ | PROT_WRITE, MAP_PRIVATE | MAP_ANONYMOUS, -1, 0);
    if (done.number != NDAKOLEEM_ACCEPTED || page == MAP_FAILED) {
        fprintf(stderr, "alignment: a filter is refused (%u) or cannot be mapped\n", done.number);
        exit(2);
    }
    memcpy(page, memory.code, done.length);
    if (mprotect(page, NDAKOLEEM_CODE_MIN, PROT_READ | PROT_EXEC) != 0) exit(2);
    uint64_t result = ((page_function)page)(NULL, 0, program, 0, 0, 0);
    munmap(page, NDAKOLEEM_CODE_MIN);
    return result;
}

int main(void) {
    const struct {
        const char *what;
        void *helper;
        unsigned want[3];
    } rows[] = {
        {"a helper's entry", (void *)stack_pointer, {0, 8, 0}},
        {"what a plain helper calls", (void *)plain, {0, 8, 0}},
        {"what an aligned helper calls", (void *)aligned, {8, 8, 8}},
    };
    enum { ROWS = sizeof rows / sizeof rows[0], CALLS = 3 };
    int passed = 0, failed = 0;
    for (int at = 0; at < 2 * ROWS * CALLS; at += 1) {
        int compact = at / (ROWS * CALLS), row = at / CALLS % ROWS, local_calls = at % CALLS;
        unsigned got = (unsigned)(called(rows[row].helper, local_calls, compact) % 16);
        int good = got == rows[row].want[local_calls];
        printf("%-30s inside %d local calls, %-18s RSP %u modulo 16%s\n", rows[row].what, local_calls,
               compact ? "compact constants:" : "rbpf's constants:", got, good ? "" : ", not as said");
        passed += good;
        failed += !good;
    }
    printf("%d passed, %d failed\n", passed, failed);
    return failed != 0;
}
