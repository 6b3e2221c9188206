/* Runs one instruction at a time on the real processor (or the emulator's): loads sixteen registers and the flags, runs the
   bytes of a record, and writes back the registers, the flags, where control came out, and the signal if there was one.
   Records come on standard input and answers go to standard output, in the machine's byte order. */
#define _GNU_SOURCE
#include <setjmp.h>
#include <signal.h>
#include <stdint.h>
#include <stdio.h>
#include <string.h>
#include <sys/mman.h>
#include <unistd.h>

/* Fixed, so that a record can name addresses: code, and memory for loads, stores and the stack. */
#define CODE ((uint8_t *)0x20000000)
#define DATA ((uint8_t *)0x30000000)
#define SIZE 0x10000

struct record {
    uint8_t code[32];    /* the instruction */
    uint32_t length;     /* its bytes */
    uint32_t at;         /* where it stands in the code */
    uint32_t other;      /* a second place to come out at, 0 for none */
    uint32_t helper;     /* a place for 'ret' alone, 0 for none */
    uint64_t regs[16];
    uint64_t flags;
    uint64_t word_at;    /* memory set before: address, and eight bytes */
    uint64_t word;
};

struct answer {
    uint64_t regs[16];
    uint64_t flags;
    uint32_t out;        /* 1: behind the instruction, 2: at `other` */
    uint32_t signal;
    uint64_t word;       /* the eight bytes at word_at, after */
};

uint64_t in_regs[16], in_flags, out_regs[16], out_flags, host_rsp, entry;
uint8_t came_out;
void back(void);
void enter(void);
uint64_t back_address;

__asm__(
    ".text\n"
    ".globl enter\n"
    "enter:\n"
    "  push %rbx\n push %rbp\n push %r12\n push %r13\n push %r14\n push %r15\n"
    "  mov %rsp, host_rsp(%rip)\n"
    "  pushq in_flags(%rip)\n"
    "  popfq\n"
    "  mov in_regs+0(%rip), %rax\n  mov in_regs+8(%rip), %rcx\n  mov in_regs+16(%rip), %rdx\n  mov in_regs+24(%rip), %rbx\n"
    "  mov in_regs+40(%rip), %rbp\n mov in_regs+48(%rip), %rsi\n mov in_regs+56(%rip), %rdi\n mov in_regs+64(%rip), %r8\n"
    "  mov in_regs+72(%rip), %r9\n  mov in_regs+80(%rip), %r10\n mov in_regs+88(%rip), %r11\n mov in_regs+96(%rip), %r12\n"
    "  mov in_regs+104(%rip), %r13\n mov in_regs+112(%rip), %r14\n mov in_regs+120(%rip), %r15\n"
    "  mov in_regs+32(%rip), %rsp\n"
    "  jmp *entry(%rip)\n"
    ".globl back\n"
    "back:\n"
    "  mov %rsp, out_regs+32(%rip)\n"
    "  mov host_rsp(%rip), %rsp\n"
    "  pushfq\n"
    "  popq out_flags(%rip)\n"
    "  mov %rax, out_regs+0(%rip)\n  mov %rcx, out_regs+8(%rip)\n  mov %rdx, out_regs+16(%rip)\n  mov %rbx, out_regs+24(%rip)\n"
    "  mov %rbp, out_regs+40(%rip)\n mov %rsi, out_regs+48(%rip)\n mov %rdi, out_regs+56(%rip)\n mov %r8, out_regs+64(%rip)\n"
    "  mov %r9, out_regs+72(%rip)\n  mov %r10, out_regs+80(%rip)\n mov %r11, out_regs+88(%rip)\n mov %r12, out_regs+96(%rip)\n"
    "  mov %r13, out_regs+104(%rip)\n mov %r14, out_regs+112(%rip)\n mov %r15, out_regs+120(%rip)\n"
    "  cld\n"
    "  pop %r15\n pop %r14\n pop %r13\n pop %r12\n pop %rbp\n pop %rbx\n"
    "  ret\n");

static sigjmp_buf faulted;

static void on_signal(int number) {
    siglongjmp(faulted, number);
}

/* where control comes out: remember which place, change nothing else, and go back. movb and jmp leave the flags. */
static void pad(uint8_t *at, uint8_t which) {
    int32_t mark = (int32_t)((uint8_t *)&came_out - (at + 7));
    int32_t target = (int32_t)((uint8_t *)&back_address - (at + 13));
    at[0] = 0xc6; at[1] = 0x05; memcpy(at + 2, &mark, 4); at[6] = which;
    at[7] = 0xff; at[8] = 0x25; memcpy(at + 9, &target, 4);
}

static int read_all(void *into, size_t n) {
    size_t done = fread(into, 1, n, stdin);
    return done == n;
}

int main(void) {
    if (mmap(CODE, SIZE, PROT_READ | PROT_WRITE | PROT_EXEC, MAP_PRIVATE | MAP_ANONYMOUS | MAP_FIXED, -1, 0) != CODE) return 2;
    if (mmap(DATA, SIZE, PROT_READ | PROT_WRITE, MAP_PRIVATE | MAP_ANONYMOUS | MAP_FIXED, -1, 0) != DATA) return 2;
    static uint8_t alternate[65536];
    stack_t stack = { .ss_sp = alternate, .ss_size = sizeof alternate };
    sigaltstack(&stack, 0);
    struct sigaction action = { .sa_handler = on_signal, .sa_flags = SA_ONSTACK | SA_NODEFER };
    sigaction(SIGFPE, &action, 0);
    sigaction(SIGSEGV, &action, 0);
    sigaction(SIGILL, &action, 0);
    sigaction(SIGBUS, &action, 0);
    back_address = (uint64_t)back;

    static struct record r;
    static struct answer a;
    while (read_all(&r, sizeof r)) {
        memset(CODE, 0xcc, 0x400);
        if (r.helper) CODE[r.helper] = 0xc3;
        if (r.other) pad(CODE + r.other, 2);
        memcpy(CODE + r.at, r.code, r.length);
        pad(CODE + r.at + r.length, 1);
        __builtin___clear_cache((char *)CODE, (char *)CODE + 0x400);
        if (r.word_at) memcpy((void *)r.word_at, &r.word, 8);
        memcpy(in_regs, r.regs, sizeof in_regs);
        in_flags = r.flags;
        entry = (uint64_t)(CODE + r.at);
        came_out = 0;
        memset(&a, 0, sizeof a);
        a.signal = sigsetjmp(faulted, 1);
        if (a.signal == 0) {
            enter();
            memcpy(a.regs, out_regs, sizeof out_regs);
            a.flags = out_flags;
            a.out = came_out;
        }
        if (r.word_at) memcpy(&a.word, (void *)r.word_at, 8);
        fwrite(&a, sizeof a, 1, stdout);
    }
    return 0;
}
