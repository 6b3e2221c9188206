/* Writes the tests of the kernel's lib/test_bpf.c to standard output. The table of them, and the functions that make the long ones, are
   compiled as they stand there, over the words of test_bpf.h; kernel_tests.py cuts them out.

   Of each test: the length of its name and the name; 0 for one of classic BPF, else 1; how many runs there are, and of each the bytes of
   memory that r1 points to and the low half of r0 at the end; the number of slots, and the slots. All numbers have 32 bits. */
#include "test_bpf.h"
#include <test_bpf_table.h>
#include <stdio.h>

enum { SLOTS = 2048 }; /* what the translator takes at most */

static void write_number(u32 number) {
    fwrite(&number, 4, 1, stdout);
}

/* As the kernel counts: behind the first, one in which both numbers are 0 is none. */
static u32 runs_of(const struct bpf_test *test) {
    u32 runs = 1;
    while (runs < MAX_SUBTESTS && (test->test[runs].data_size || test->test[runs].result)) runs++;
    return runs;
}

/* As the kernel counts: up to the last slot that is not all 0. */
static u32 slots_of(const struct bpf_test *test) {
    u32 slots = MAX_INSNS;
    while (slots > 1 && !test->u.insns[slots - 1].code && !test->u.insns[slots - 1].k) slots--;
    return slots;
}

/* Staggered jumps are three slots for each jump, and seven; their result says how many jumps there are, and one. There may be fewer: here as
   many, an even number, as the translator takes. */
static void shorten(struct bpf_test *test) {
    if (test->test[0].result == MAX_STAGGERED_JMP_SIZE + 1) test->test[0].result = (SLOTS - 7) / 6 * 2 + 1;
}

static void write_test(struct bpf_test *test) {
    bool is_classic = test->aux & CLASSIC;
    const void *slots = test->u.insns;
    u32 count = slots_of(test), runs = runs_of(test);
    if (test->fill_helper) {
        if (test->fill_helper(test)) abort();
        slots = test->u.ptr.insns;
        count = test->u.ptr.len;
    }
    write_number(strlen(test->descr));
    fputs(test->descr, stdout);
    write_number(!is_classic);
    write_number(runs);
    for (u32 i = 0; i < runs; i++) {
        write_number(test->aux & FLAG_LARGE_MEM ? test->test[i].data_size : 0);
        write_number(test->test[i].result);
    }
    write_number(count);
    fwrite(slots, 8, count, stdout);
}

int main(void) {
    for (size_t i = 0; i < ARRAY_SIZE(tests); i++) {
        shorten(&tests[i]);
        write_test(&tests[i]);
    }
    return 0;
}
