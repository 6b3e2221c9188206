/* The words in which the kernel's lib/test_bpf.c writes its tests. Opcodes and the formats of instructions are those that Linux gives to
   every program; what the kernel's own headers make of the rest is said here anew, for a little-endian machine of 64 bits. */
#include <errno.h>
#include <linux/bpf.h>
#include <linux/filter.h>
#include <linux/if_ether.h>
#include <stdbool.h>
#include <stdint.h>
#include <stdlib.h>
#include <string.h>

#undef __BIG_ENDIAN /* to the C library the name of a byte order, to the kernel a sign that it is the machine's */

typedef __u8 u8;
typedef __u32 u32;
typedef __s32 s32;
typedef __u64 u64;
typedef __s64 s64;

#define S16_MAX INT16_MAX
#define S32_MAX INT32_MAX
#define S32_MIN INT32_MIN
#define S64_MAX INT64_MAX
#define U32_MAX UINT32_MAX
#define BIT(n) (1u << (n))
#define ARRAY_SIZE(array) (sizeof(array) / sizeof *(array))
#define max(a, b) ((a) > (b) ? (a) : (b))
#define div64_u64(a, b) ((a) / (b))
#define div64_u64_rem(a, b, rest) (*(rest) = (a) % (b))
#define cpu_to_le16(number) (number)
#define cpu_to_le32(number) (number)
#define cpu_to_le64(number) (number)
#define cpu_to_be16 __builtin_bswap16
#define cpu_to_be32 __builtin_bswap32
#define cpu_to_be64 __builtin_bswap64
#define kmalloc_array(count, size, flags) calloc(count, size)
#define BUG_ON(condition) do { if (condition) abort(); } while (0)

/* Random numbers stand in tests of classic BPF alone. */
struct rnd_state {
    u32 number;
};
#define prandom_seed_state(state, seed) ((state)->number = (u32)(seed))
#define prandom_u32_state(state) ((state)->number)
#define __BPF_STMT(code, k) ((struct sock_filter)BPF_STMT(code, k))
#define __BPF_JUMP(code, k, taken, not_taken) ((struct sock_filter)BPF_JUMP(code, k, taken, not_taken))

#define INSN(opcode, dst, src, distance, number) \
    ((struct bpf_insn){.code = (opcode), .dst_reg = (dst), .src_reg = (src), .off = (distance), .imm = (number)})

#define BPF_ALU64_REG_OFF(op, dst, src, off) INSN(BPF_ALU64 | BPF_OP(op) | BPF_X, dst, src, off, 0)
#define BPF_ALU32_REG_OFF(op, dst, src, off) INSN(BPF_ALU | BPF_OP(op) | BPF_X, dst, src, off, 0)
#define BPF_ALU64_IMM_OFF(op, dst, imm, off) INSN(BPF_ALU64 | BPF_OP(op) | BPF_K, dst, 0, off, imm)
#define BPF_ALU32_IMM_OFF(op, dst, imm, off) INSN(BPF_ALU | BPF_OP(op) | BPF_K, dst, 0, off, imm)
#define BPF_ALU64_REG(op, dst, src) BPF_ALU64_REG_OFF(op, dst, src, 0)
#define BPF_ALU32_REG(op, dst, src) BPF_ALU32_REG_OFF(op, dst, src, 0)
#define BPF_ALU64_IMM(op, dst, imm) BPF_ALU64_IMM_OFF(op, dst, imm, 0)
#define BPF_ALU32_IMM(op, dst, imm) BPF_ALU32_IMM_OFF(op, dst, imm, 0)
#define BPF_MOV64_REG(dst, src) BPF_ALU64_REG(BPF_MOV, dst, src)
#define BPF_MOV64_IMM(dst, imm) BPF_ALU64_IMM(BPF_MOV, dst, imm)
#define BPF_MOV32_IMM(dst, imm) BPF_ALU32_IMM(BPF_MOV, dst, imm)
#define BPF_MOVSX64_REG(dst, src, bits) BPF_ALU64_REG_OFF(BPF_MOV, dst, src, bits)
#define BPF_MOVSX32_REG(dst, src, bits) BPF_ALU32_REG_OFF(BPF_MOV, dst, src, bits)
#define BPF_ZEXT_REG(dst) INSN(BPF_ALU | BPF_MOV | BPF_X, dst, dst, 0, 1)
#define BPF_ENDIAN(order, dst, bits) INSN(BPF_ALU | BPF_END | BPF_SRC(order), dst, 0, 0, bits)
#define BPF_BSWAP(dst, bits) INSN(BPF_ALU64 | BPF_END, dst, 0, 0, bits)

#define BPF_LD_IMM64(dst, number) INSN(BPF_LD | BPF_DW | BPF_IMM, dst, 0, 0, (u32)(number)), INSN(0, 0, 0, 0, (u64)(number) >> 32)
#define BPF_LDX_MEM(size, dst, src, off) INSN(BPF_LDX | BPF_SIZE(size) | BPF_MEM, dst, src, off, 0)
#define BPF_LDX_MEMSX(size, dst, src, off) INSN(BPF_LDX | BPF_SIZE(size) | 0x80, dst, src, off, 0)
#define BPF_STX_MEM(size, dst, src, off) INSN(BPF_STX | BPF_SIZE(size) | BPF_MEM, dst, src, off, 0)
#define BPF_ST_MEM(size, dst, off, imm) INSN(BPF_ST | BPF_SIZE(size) | BPF_MEM, dst, 0, off, imm)
#define BPF_ATOMIC_OP(size, op, dst, src, off) INSN(BPF_STX | BPF_SIZE(size) | BPF_ATOMIC, dst, src, off, op)
#define BPF_STX_XADD(size, dst, src, off) BPF_ATOMIC_OP(size, BPF_ADD, dst, src, off)

#define BPF_JMP_A(off) INSN(BPF_JMP | BPF_JA, 0, 0, off, 0)
#define BPF_JMP_REG(op, dst, src, off) INSN(BPF_JMP | BPF_OP(op) | BPF_X, dst, src, off, 0)
#define BPF_JMP_IMM(op, dst, imm, off) INSN(BPF_JMP | BPF_OP(op) | BPF_K, dst, 0, off, imm)
#define BPF_JMP32_REG(op, dst, src, off) INSN(BPF_JMP32 | BPF_OP(op) | BPF_X, dst, src, off, 0)
#define BPF_JMP32_IMM(op, dst, imm, off) INSN(BPF_JMP32 | BPF_OP(op) | BPF_K, dst, 0, off, imm)
#define BPF_EXIT_INSN() INSN(BPF_JMP | BPF_EXIT, 0, 0, 0, 0)
