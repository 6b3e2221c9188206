// A plugin for qemu-user (plugin interface 1: Debian 12's qemu 7.2) that counts the guest's instructions in marked stretches.
// The guest begins a stretch by system call 500000 with the stretch's label as its argument and ends it by 500001; no kernel has these
// calls. A label may be begun again: its counts are added up. At exit a line "LABEL INSTRUCTIONS STRETCHES" for each label that was used
// goes to the file that the plugin's argument `out=FILE` names. One thread only.
#include <inttypes.h>
#include <stdio.h>
#include <stdlib.h>
#include <string.h>

// What is used of qemu-plugin.h, which Debian does not pack.
typedef uint64_t qemu_plugin_id_t;
struct qemu_plugin_tb;
struct qemu_plugin_insn;
typedef struct { const char *target_name; int min, cur; int system; int smp, max; } info_t;
extern void qemu_plugin_register_vcpu_tb_trans_cb(qemu_plugin_id_t, void (*)(qemu_plugin_id_t, struct qemu_plugin_tb *));
extern size_t qemu_plugin_tb_n_insns(const struct qemu_plugin_tb *);
extern struct qemu_plugin_insn *qemu_plugin_tb_get_insn(const struct qemu_plugin_tb *, size_t);
extern void qemu_plugin_register_vcpu_insn_exec_inline(struct qemu_plugin_insn *, int op, void *, uint64_t);
extern void qemu_plugin_register_atexit_cb(qemu_plugin_id_t, void (*)(qemu_plugin_id_t, void *), void *);
extern void qemu_plugin_register_vcpu_syscall_cb(qemu_plugin_id_t,
    void (*)(qemu_plugin_id_t, unsigned, int64_t, uint64_t, uint64_t, uint64_t, uint64_t, uint64_t, uint64_t, uint64_t, uint64_t));

enum { BEGIN = 500000, END = 500001, LABELS = 4096 };

int qemu_plugin_version = 1;
static const char *out_name;
static uint64_t total, begun, label;
static uint64_t counted[LABELS], stretches[LABELS];

// Instruction by instruction and not block by block: qemu 7.2 says one too many of a block that ends before an instruction which lies across
// two pages, so that a count would move with where the linker puts the code.
static void translated(qemu_plugin_id_t id, struct qemu_plugin_tb *tb) {
    (void)id;
    for (size_t at = 0; at < qemu_plugin_tb_n_insns(tb); at++)
        qemu_plugin_register_vcpu_insn_exec_inline(qemu_plugin_tb_get_insn(tb, at), 0, &total, 1);
}

static void called(qemu_plugin_id_t id, unsigned cpu, int64_t number, uint64_t a, uint64_t b, uint64_t c, uint64_t d,
                   uint64_t e, uint64_t f, uint64_t g, uint64_t h) {
    (void)id; (void)cpu; (void)b; (void)c; (void)d; (void)e; (void)f; (void)g; (void)h;
    if (number == BEGIN) {
        if (a >= LABELS) {
            fprintf(stderr, "icount: label %" PRIu64 " is above %d\n", a, LABELS - 1);
            exit(2);
        }
        label = a;
        begun = total;
    }
    if (number == END) {
        counted[label] += total - begun;
        stretches[label] += 1;
    }
}

static void ended(qemu_plugin_id_t id, void *nothing) {
    (void)id; (void)nothing;
    FILE *out = fopen(out_name, "w");
    if (out == NULL) {
        fprintf(stderr, "icount: cannot write %s\n", out_name);
        return;
    }
    for (int at = 0; at < LABELS; at++)
        if (stretches[at] > 0) fprintf(out, "%d %" PRIu64 " %" PRIu64 "\n", at, counted[at], stretches[at]);
    fclose(out);
}

int qemu_plugin_install(qemu_plugin_id_t id, const info_t *info, int argc, char **argv) {
    (void)info;
    if (argc != 1 || strncmp(argv[0], "out=", 4) != 0) {
        fprintf(stderr, "icount: the one argument is out=FILE\n");
        return 1;
    }
    out_name = strdup(argv[0] + 4);
    qemu_plugin_register_vcpu_tb_trans_cb(id, translated);
    qemu_plugin_register_vcpu_syscall_cb(id, called);
    qemu_plugin_register_atexit_cb(id, ended, 0);
    return 0;
}
