// Stands around DPDK's JIT and its interpreter, lib/bpf/bpf_jit_x86.c and lib/bpf/bpf_exec.c of Debian's source package dpdk, which
// bench/build-dpdk compiles beside this file with DPDK's own headers. A program comes to both as a struct rte_bpf, which DPDK's loader makes
// once its validator has passed the program; here it is made without them. Below it stand the functions of DPDK that they name.
#include <stdio.h>
#include <stdlib.h>

#include <rte_debug.h>
#include <rte_log.h>

#include "bpf_impl.h"

struct loaded {
    struct rte_bpf bpf;
    struct rte_bpf_xsym helpers[];
};

// The slots are borrowed; a call's number is the place of its address among the helpers. The stack is rbpf's 512 bytes, where DPDK's
// validator would give as many as the program uses.
struct rte_bpf *dpdk_load(const struct ebpf_insn *slots, uint32_t slot_count, const uint64_t *helpers, uint32_t helper_count) {
    struct loaded *loaded = calloc(1, sizeof(*loaded) + helper_count * sizeof(loaded->helpers[0]));
    if (loaded == NULL) {
        fprintf(stderr, "bench: there is no memory for a program of DPDK's\n");
        exit(2);
    }
    for (uint32_t at = 0; at < helper_count; at++) loaded->helpers[at].func.val = (void *)(uintptr_t)helpers[at];
    loaded->bpf.prm = (struct rte_bpf_prm){ .ins = slots, .nb_ins = slot_count, .xsym = loaded->helpers, .nb_xsym = helper_count };
    loaded->bpf.stack_sz = MAX_BPF_STACK_SIZE;
    return &loaded->bpf;
}

// Gives back the page of the last translation, if there was one.
void dpdk_unmap(struct rte_bpf *bpf) {
    if (bpf->jit.func != NULL) munmap((void *)bpf->jit.func, bpf->jit.sz);
    bpf->jit.func = NULL;
}

void dpdk_free(struct rte_bpf *bpf) {
    dpdk_unmap(bpf);
    free((struct loaded *)bpf);
}

// ---- what they name ----------------------------------------------------------------------------------------------------------------------

int rte_bpf_logtype;

// A refusal's sentence; the bench goes by the status.
int rte_log(uint32_t level, uint32_t type, const char *format, ...) {
    (void)level; (void)type; (void)format;
    return 0;
}

void __rte_panic(const char *function, const char *format, ...) {
    (void)format;
    fprintf(stderr, "bench: DPDK's JIT gave up in %s\n", function);
    exit(2);
}

// For loads from DPDK's own packet buffer, which the bench gives to neither.
const void *__rte_pktmbuf_read(const struct rte_mbuf *packet, uint32_t offset, uint32_t length, void *copy) {
    (void)packet; (void)offset; (void)length; (void)copy;
    return NULL;
}
