/* A plugin for qemu-x86_64 that counts guest instructions. A guest asks for the count by the system call ASK_FOR_COUNT
 * with an open file descriptor: the count so far, with that call's own instruction, is written to it as 8 bytes.
 *
 * Debian 12 ships qemu's plugin interface without its header; what is used of it is declared here. */
#include <stddef.h>
#include <stdint.h>
#include <unistd.h>

#include "count.h"

typedef uint64_t qemu_plugin_id_t;
struct qemu_plugin_tb;
struct qemu_plugin_insn;
enum qemu_plugin_cb_flags { QEMU_PLUGIN_CB_NO_REGS };

typedef void (*block_translated)(qemu_plugin_id_t, struct qemu_plugin_tb *);
typedef void (*instruction_run)(unsigned int vcpu, void *unused);
typedef void (*system_call)(qemu_plugin_id_t, unsigned int vcpu, int64_t number, uint64_t, uint64_t, uint64_t, uint64_t,
                            uint64_t, uint64_t, uint64_t, uint64_t);

void qemu_plugin_register_vcpu_tb_trans_cb(qemu_plugin_id_t, block_translated);
void qemu_plugin_register_vcpu_insn_exec_cb(struct qemu_plugin_insn *, instruction_run, enum qemu_plugin_cb_flags, void *);
void qemu_plugin_register_vcpu_syscall_cb(qemu_plugin_id_t, system_call);
size_t qemu_plugin_tb_n_insns(const struct qemu_plugin_tb *);
struct qemu_plugin_insn *qemu_plugin_tb_get_insn(const struct qemu_plugin_tb *, size_t);

/* 1 for qemu 4.2 to 8.2, 2 from 9.0 on: set by the Makefile from qemu's own version. */
int qemu_plugin_version = QEMU_PLUGIN_VERSION;

static uint64_t count;

static void on_run(unsigned int vcpu, void *unused)
{
    (void)vcpu, (void)unused;
    count++;
}

/* Each instruction by itself: the length of a block is one too many where its last would cross a page. */
static void on_translated(qemu_plugin_id_t id, struct qemu_plugin_tb *block)
{
    (void)id;
    for (size_t i = 0; i < qemu_plugin_tb_n_insns(block); i++)
        qemu_plugin_register_vcpu_insn_exec_cb(qemu_plugin_tb_get_insn(block, i), on_run, QEMU_PLUGIN_CB_NO_REGS, NULL);
}

static void on_system_call(qemu_plugin_id_t id, unsigned int vcpu, int64_t number, uint64_t fd, uint64_t a2, uint64_t a3,
                           uint64_t a4, uint64_t a5, uint64_t a6, uint64_t a7, uint64_t a8)
{
    (void)id, (void)vcpu, (void)a2, (void)a3, (void)a4, (void)a5, (void)a6, (void)a7, (void)a8;
    if (number == ASK_FOR_COUNT) {
        ssize_t done = write((int)fd, &count, sizeof count);
        (void)done;                     /* the guest sees that nothing came */
    }
}

int qemu_plugin_install(qemu_plugin_id_t id, const void *info, int argc, char **argv)
{
    (void)info, (void)argc, (void)argv;
    qemu_plugin_register_vcpu_tb_trans_cb(id, on_translated);
    qemu_plugin_register_vcpu_syscall_cb(id, on_system_call);
    return 0;
}
