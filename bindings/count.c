/* A plugin of qemu's (API version 1) that counts the instructions that a program executes, and says `instructions N` on standard
   error when it ends. Debian's qemu-user has no qemu-plugin.h, so what is used of it is declared here. */
#include <inttypes.h>
#include <stdio.h>

struct qemu_plugin_tb;
struct qemu_plugin_insn;
typedef void (*translated)(uint64_t, struct qemu_plugin_tb *);
typedef void (*ended)(uint64_t, void *);
extern void qemu_plugin_register_vcpu_tb_trans_cb(uint64_t, translated);
extern void qemu_plugin_register_atexit_cb(uint64_t, ended, void *);
extern size_t qemu_plugin_tb_n_insns(const struct qemu_plugin_tb *);
extern struct qemu_plugin_insn *qemu_plugin_tb_get_insn(const struct qemu_plugin_tb *, size_t);
/* the second argument is QEMU_PLUGIN_INLINE_ADD_U64 */
extern void qemu_plugin_register_vcpu_insn_exec_inline(struct qemu_plugin_insn *, int, void *, uint64_t);

int qemu_plugin_version = 1;
static uint64_t executed;

static void each_block(uint64_t id, struct qemu_plugin_tb *block) {
    for (size_t i = 0; i < qemu_plugin_tb_n_insns(block); i++)
        qemu_plugin_register_vcpu_insn_exec_inline(qemu_plugin_tb_get_insn(block, i), 0, &executed, 1);
}

static void at_end(uint64_t id, void *nothing) {
    fprintf(stderr, "instructions %" PRIu64 "\n", executed);
}

int qemu_plugin_install(uint64_t id, const void *info, int argc, char **argv) {
    qemu_plugin_register_vcpu_tb_trans_cb(id, each_block);
    qemu_plugin_register_atexit_cb(id, at_end, NULL);
    return 0;
}
