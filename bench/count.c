/* Where callgrind can't run: a plugin for QEMU's user emulator (7.2, plugin interface 1; its header is declared here as far
 * as it is used) that counts the instructions executed between the driver's count_begin and count_end, a number a line.
 *   qemu-x86_64 -plugin count.so,out=FILE bench count */
#include <inttypes.h>
#include <stddef.h>
#include <stdio.h>
#include <string.h>

typedef uint64_t qemu_plugin_id_t;
struct qemu_plugin_tb;
struct qemu_plugin_insn;
typedef void Translated(qemu_plugin_id_t, struct qemu_plugin_tb *);
typedef void Executed(unsigned cpu, void *data);
enum { ADD_U64 = 0, NO_REGS = 0 };
void qemu_plugin_register_vcpu_tb_trans_cb(qemu_plugin_id_t, Translated *);
size_t qemu_plugin_tb_n_insns(const struct qemu_plugin_tb *);
struct qemu_plugin_insn *qemu_plugin_tb_get_insn(const struct qemu_plugin_tb *, size_t);
const char *qemu_plugin_insn_symbol(const struct qemu_plugin_insn *);
void qemu_plugin_register_vcpu_tb_exec_cb(struct qemu_plugin_tb *, Executed *, int flags, void *data);
void qemu_plugin_register_vcpu_insn_exec_inline(struct qemu_plugin_insn *, int op, void *to, uint64_t number);

int qemu_plugin_version = 1;

static uint64_t count;
static FILE *out;

static void begin(unsigned cpu, void *data) {
    (void)cpu, (void)data;
    count = 0;
}
static void end(unsigned cpu, void *data) {
    (void)cpu, (void)data;
    fprintf(out, "%" PRIu64 "\n", count);
    fflush(out);
}
/* Each instruction is counted by itself: a block's length can have one too many, which lies across two pages and is
 * translated again at the head of the next block. */
static void translated(qemu_plugin_id_t id, struct qemu_plugin_tb *tb) {
    (void)id;
    const char *symbol = qemu_plugin_insn_symbol(qemu_plugin_tb_get_insn(tb, 0));
    if (symbol && !strcmp(symbol, "count_begin")) qemu_plugin_register_vcpu_tb_exec_cb(tb, begin, NO_REGS, 0);
    if (symbol && !strcmp(symbol, "count_end")) qemu_plugin_register_vcpu_tb_exec_cb(tb, end, NO_REGS, 0);
    for (size_t i = 0; i < qemu_plugin_tb_n_insns(tb); i++)
        qemu_plugin_register_vcpu_insn_exec_inline(qemu_plugin_tb_get_insn(tb, i), ADD_U64, &count, 1);
}

int qemu_plugin_install(qemu_plugin_id_t id, const void *info, int argc, char **argv) {
    (void)info;
    if (argc != 1 || strncmp(argv[0], "out=", 4) || !(out = fopen(argv[0] + 4, "w"))) return 1;
    qemu_plugin_register_vcpu_tb_trans_cb(id, translated);
    return 0;
}
