/* Plays the loader: translates filters with the library, maps each page executable and runs it on packets, on a real x86-64 processor
   or the emulator's. A packet ends where a page that nobody may touch begins, so that a read behind it is seen; helpers leave rubbish in
   every register that they may change. Numbers are little-endian.

   Standard input: the number of packets, each as its length and bytes; then filters until the end, each as flags (bit 0 use_mbuff, bit 1
   update_data_ptr, bit 2 standard mode, bit 3 compact constants, bit 4 the packet's length as the page's second argument, which is r2), the
   page's bytes, the number of helper ids and the ids, the program's length and bytes, and the position of a code byte to change before the run
   (ffffffff for none). All numbers have 32 bits.
   Standard output, for each filter: number, slot, L and J of the answer, 32 bits each; accepted, the L code bytes and then for each packet
   a byte 0, the signal that ended the run, or 255 where registers that a function has to keep were changed, and the 64 bits of r0. A page
   that does not end is not run again: the packets behind get the same byte. */
#define _GNU_SOURCE
#include "ndakoleem.h"
#include <setjmp.h>
#include <signal.h>
#include <stdio.h>
#include <stdlib.h>
#include <string.h>
#include <sys/mman.h>
#include <unistd.h>

#define PACKET_END ((uint8_t *)0x30010000)
#define MBUFF_END ((uint8_t *)0x20001000)
#define FAR_HELPERS 0x100000000000ull
#define SIGNED_END 0x80000000ull /* from here on an address is beyond the reach of a signed 32-bit constant */
#define SHORT_END 0x100000000ull /* and from here on of any 32-bit one */
#define PAGE 4096
#define NO_CHANGE 0xffffffffu
#define REGISTERS_CHANGED 255
#define MAX_PACKETS 4096
#define SECONDS 2 /* a run that takes longer does not end */

/* Calls the page with four arguments. The registers that it has to keep get marks, and `kept` tells whether the marks and RSP were there
   afterwards. */
uint64_t call_page(const void *page, const uint64_t arguments[4], uint64_t *kept);
extern uint64_t kept_rsp;
uint64_t kept_rsp;

__asm__(
    ".text\n"
    "call_page:\n"
    "  push %rbx\n push %rbp\n push %r12\n push %r13\n push %r14\n push %r15\n push %rdx\n"
    "  mov %rdi, %rax\n mov %rsi, %r11\n"
    "  mov (%r11), %rdi\n mov 8(%r11), %rsi\n mov 16(%r11), %rdx\n mov 24(%r11), %rcx\n xor %r8d, %r8d\n xor %r9d, %r9d\n"
    "  mov $0x11111111, %ebx\n mov $0x22222222, %ebp\n mov $0x33333333, %r12d\n"
    "  mov $0x44444444, %r13d\n mov $0x55555555, %r14d\n mov $0x66666666, %r15d\n"
    "  mov %rsp, kept_rsp(%rip)\n"
    "  call *%rax\n"
    "  xor %ecx, %ecx\n"
    "  cmp %rsp, kept_rsp(%rip)\n jne 1f\n"
    "  cmp $0x11111111, %rbx\n jne 1f\n cmp $0x22222222, %rbp\n jne 1f\n cmp $0x33333333, %r12\n jne 1f\n"
    "  cmp $0x44444444, %r13\n jne 1f\n cmp $0x55555555, %r14\n jne 1f\n cmp $0x66666666, %r15\n jne 1f\n"
    "  mov $1, %ecx\n"
    "1: mov kept_rsp(%rip), %rsp\n"
    "  pop %rdx\n mov %rcx, (%rdx)\n"
    "  pop %r15\n pop %r14\n pop %r13\n pop %r12\n pop %rbp\n pop %rbx\n"
    "  ret\n");

/* A helper as a page may call it: RSP is put where C wants it, and all that a function may change is changed. */
#define HELPER(name)                                                                                                               \
    void enter_##name(void);                                                                                                       \
    __asm__(".text\nenter_" #name ":\n push %rbp\n mov %rsp, %rbp\n and $-16, %rsp\n call " #name "\n leave\n"                      \
            " mov $0xbad1bad1, %ecx\n mov %rcx, %rdx\n mov %rcx, %rsi\n mov %rcx, %rdi\n"                                            \
            " mov %rcx, %r8\n mov %rcx, %r9\n mov %rcx, %r10\n mov %rcx, %r11\n ret\n")

__attribute__((used)) static uint64_t is_subscribed(uint32_t address) {
    return (address & 255) % 7 == 0;
}

__attribute__((used)) static uint64_t mix(uint64_t a, uint64_t b, uint64_t c, uint64_t d, uint64_t e) {
    uint64_t sum = (((a * 31 + b) * 31 + c) * 31 + d) * 31 + e;
    return sum >> 32 ^ (uint32_t)sum;
}

static uint64_t halves(const uint8_t *at, uint32_t size) {
    uint64_t sum = 0;
    for (uint32_t i = 0; i + 1 < size; i += 2) sum += at[i] | at[i + 1] << 8;
    return sum;
}

/* Sizes are multiples of 4, as the kernel wants them; taking away is adding the complement. */
__attribute__((used)) static uint64_t csum_diff(const uint8_t *from, uint32_t from_size, const uint8_t *to, uint32_t to_size, uint32_t seed) {
    uint64_t sum = seed + halves(to, to_size) + (from_size / 2) * 0xffffull - halves(from, from_size);
    while (sum >> 32) sum = (uint32_t)sum + (sum >> 32);
    return sum;
}

HELPER(is_subscribed);
HELPER(mix);
HELPER(csum_diff);

static void stop(const char *why) {
    fprintf(stderr, "runner: %s\n", why);
    exit(2);
}

static void map(uint8_t *at, size_t length, int protection) {
    if (mmap(at, length, protection, MAP_PRIVATE | MAP_ANONYMOUS | MAP_FIXED, -1, 0) != at) stop("memory cannot be mapped");
}

/* The helpers. One with a place is entered there: far away, and on both sides of the two ends, so that every way to load an address is run.
   One without stands where the compiler has it. */
static const struct helper {
    uint32_t id;
    uint64_t place;
    void (*entry)(void);
} known[] = {
    {1, 0, enter_is_subscribed},
    {2, FAR_HELPERS, enter_mix},
    {28, FAR_HELPERS + 16, enter_csum_diff},
    {201, SIGNED_END - 16, enter_mix},
    {202, SIGNED_END, enter_mix},
    {203, SHORT_END - 16, enter_mix},
    {204, SHORT_END, enter_mix},
};

/* Writes a jump to the helper's entry at its place, which has 16 bytes. */
static uint64_t placed(const struct helper *helper) {
    uint8_t *at = (uint8_t *)helper->place;
    uint64_t address = (uint64_t)helper->entry;
    at[0] = 0x48; at[1] = 0xb8; memcpy(at + 2, &address, 8);
    at[10] = 0xff; at[11] = 0xe0;
    return helper->place;
}

static uint64_t helper_address(uint32_t id) {
    for (size_t i = 0; i < sizeof known / sizeof *known; i++) {
        if (known[i].id == id) return known[i].place ? placed(&known[i]) : (uint64_t)known[i].entry;
    }
    stop("there is no such helper");
    return 0;
}

static void map_places(void) {
    const int all = PROT_READ | PROT_WRITE | PROT_EXEC;
    map((uint8_t *)FAR_HELPERS, PAGE, all);
    map((uint8_t *)SIGNED_END - PAGE, 2 * PAGE, all);
    map((uint8_t *)SHORT_END - PAGE, 2 * PAGE, all);
}

static void read_all(void *into, size_t length) {
    if (fread(into, 1, length, stdin) != length) stop("the input ends too soon");
}

static uint32_t read_number(void) {
    uint32_t number;
    read_all(&number, 4);
    return number;
}

static void write_all(const void *from, size_t length) {
    if (fwrite(from, 1, length, stdout) != length) stop("the output cannot be written");
}

struct bytes {
    uint32_t length;
    uint8_t *at;
};

static struct bytes read_bytes(void) {
    struct bytes b = {.length = read_number()};
    b.at = malloc(b.length + 1);
    if (!b.at) stop("there is not enough memory");
    read_all(b.at, b.length);
    return b;
}

static sigjmp_buf faulted;

static void on_signal(int number) {
    siglongjmp(faulted, number);
}

static void catch_signals(void) {
    static uint8_t alternate[65536];
    stack_t stack = {.ss_sp = alternate, .ss_size = sizeof alternate};
    sigaltstack(&stack, 0);
    struct sigaction action = {.sa_handler = on_signal, .sa_flags = SA_ONSTACK | SA_NODEFER};
    const int signals[] = {SIGFPE, SIGSEGV, SIGILL, SIGBUS, SIGTRAP, SIGALRM};
    for (size_t i = 0; i < sizeof signals / sizeof *signals; i++) sigaction(signals[i], &action, 0);
}

static void write_run(uint8_t end, uint64_t verdict) {
    write_all(&end, 1);
    write_all(&verdict, 8);
}

/* Runs the page on a packet, writes what came of it and gives how it ended. A raw filter is promised 64 bytes. */
static uint8_t run(const uint8_t *page, bool use_mbuff, bool length_in_r2, struct bytes packet) {
    uint64_t room = !use_mbuff && packet.length < 64 ? 64 : packet.length;
    uint8_t *data = PACKET_END - room;
    memset(PACKET_END - 2 * PAGE, 0xa5, 2 * PAGE);
    memset(data, 0, room);
    memcpy(data, packet.at, packet.length);
    uint64_t mbuff[2] = {(uint64_t)data, (uint64_t)(data + packet.length)};
    memcpy(MBUFF_END - sizeof mbuff, mbuff, sizeof mbuff);
    uint64_t second = length_in_r2 ? packet.length : sizeof mbuff;
    uint64_t arguments[4] = {(uint64_t)(MBUFF_END - sizeof mbuff), second, (uint64_t)data, packet.length};
    volatile uint64_t verdict = 0;
    uint64_t kept = 0;
    uint8_t end = (uint8_t)sigsetjmp(faulted, 1);
    if (end == 0) {
        alarm(SECONDS);
        verdict = call_page(page, arguments, &kept);
        if (!kept) end = REGISTERS_CHANGED;
    }
    alarm(0);
    write_run(end, verdict);
    return end;
}

/* The code in memory of its own: written first, then made executable and no longer writable. */
static uint8_t *executable(const uint8_t *code, size_t length) {
    static uint8_t *page;
    static size_t used = PAGE;
    if (!page) page = mmap(0, NDAKOLEEM_CODE_MAX, PROT_READ | PROT_WRITE, MAP_PRIVATE | MAP_ANONYMOUS, -1, 0);
    if (page == MAP_FAILED) stop("a page cannot be mapped");
    if (mprotect(page, used, PROT_READ | PROT_WRITE)) stop("a page cannot be made writable");
    used = (length + PAGE - 1) / PAGE * PAGE;
    if (mprotect(page, used, PROT_READ | PROT_WRITE)) stop("a page cannot be made writable");
    memset(page, 0xcc, used);
    memcpy(page, code, length);
    if (mprotect(page, used, PROT_READ | PROT_EXEC)) stop("a page cannot be made executable");
    return page;
}

static void try_filter(struct ndakoleem_flags flags, bool length_in_r2, const struct bytes *packets, uint32_t packet_count) {
    static uint8_t code[NDAKOLEEM_CODE_MAX];
    static struct ndakoleem_memory memory;
    uint32_t ids[NDAKOLEEM_HELPERS_MAX];
    uint64_t addresses[NDAKOLEEM_HELPERS_MAX];
    uint32_t page_length = read_number(), helpers = read_number();
    if (page_length > NDAKOLEEM_CODE_MAX || helpers > NDAKOLEEM_HELPERS_MAX) stop("the page is too long, or there are too many helpers");
    for (uint32_t i = 0; i < helpers; i++) addresses[i] = helper_address(ids[i] = read_number());
    struct bytes program = read_bytes();
    uint32_t changed = read_number();
    struct ndakoleem_buffers lent = ndakoleem_lend(&memory);
    lent.code = code; /* a page may be longer than is enough */
    lent.code_length = page_length;
    struct ndakoleem_translation t = ndakoleem_translate_into(program.at, program.length, flags, ids, helpers, addresses, helpers, &lent);
    free(program.at);
    uint32_t answer[4] = {t.number, t.slot, t.length, t.jumps};
    write_all(answer, sizeof answer);
    if (t.number != NDAKOLEEM_ACCEPTED) return;
    write_all(code, t.length);
    if (changed != NO_CHANGE) code[changed % t.length] ^= 1;
    uint8_t *page = executable(code, t.length);
    for (uint32_t i = 0, end = 0; i < packet_count; i++) {
        if (end == SIGALRM) write_run(end, 0);
        else end = run(page, flags.use_mbuff, length_in_r2, packets[i]);
    }
}

int main(void) {
    static struct bytes packets[MAX_PACKETS];
    map(PACKET_END - 0x10000, 0x10000, PROT_READ | PROT_WRITE);
    map(PACKET_END, PAGE, PROT_NONE);
    map(MBUFF_END - PAGE, PAGE, PROT_READ | PROT_WRITE);
    map(MBUFF_END, PAGE, PROT_NONE);
    map_places();
    catch_signals();
    uint32_t count = read_number();
    if (count > MAX_PACKETS) stop("there are too many packets");
    for (uint32_t i = 0; i < count; i++) packets[i] = read_bytes();
    uint32_t flags;
    while (fread(&flags, 1, 4, stdin) == 4) {
        struct ndakoleem_flags named = {
            .use_mbuff = flags & 1, .update_data_ptr = flags & 2, .standard = flags & 4, .compact = flags & 8};
        try_filter(named, flags & 16, packets, count);
    }
    return 0;
}
