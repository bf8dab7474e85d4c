/* A plugin for qemu-user that counts the instructions which the emulated program executes, and prints the total when it ends. A translated block adds the number of
 * its instructions each time it runs. The functions are those of QEMU's plugin interface, version 1; they are declared here, since Debian's qemu-user has no header. */
#include <inttypes.h>
#include <stdio.h>

typedef uint64_t id;
struct qemu_plugin_tb;
void qemu_plugin_register_vcpu_tb_trans_cb(id, void (*)(id, struct qemu_plugin_tb *));
void qemu_plugin_register_vcpu_tb_exec_inline(struct qemu_plugin_tb *, int operation, void *, uint64_t);
size_t qemu_plugin_tb_n_insns(const struct qemu_plugin_tb *);
void qemu_plugin_register_atexit_cb(id, void (*)(id, void *), void *);
void qemu_plugin_outs(const char *);

enum { ADD_U64 = 0 };
int qemu_plugin_version = 1;
static uint64_t executed;

static void block(id self, struct qemu_plugin_tb *tb) {
    (void)self;
    qemu_plugin_register_vcpu_tb_exec_inline(tb, ADD_U64, &executed, qemu_plugin_tb_n_insns(tb));
}

static void ended(id self, void *none) {
    char line[48];
    (void)self, (void)none;
    snprintf(line, sizeof line, "executed %" PRIu64 "\n", executed);
    qemu_plugin_outs(line);
}

int qemu_plugin_install(id self, const void *info, int argc, char **argv) {
    (void)info, (void)argc, (void)argv;
    qemu_plugin_register_vcpu_tb_trans_cb(self, block);
    qemu_plugin_register_atexit_cb(self, ended, NULL);
    return 0;
}
