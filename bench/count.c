/* A plugin of QEMU that counts the instructions of a program as they are executed. At each mark, and at the end, it
 * writes a line: the three numbers of the mark, 0 at the end, and the instructions since the mark before. */
#include <inttypes.h>
#include <stdio.h>

#include "mark.h"
#include "qemu-plugin.h"

int qemu_plugin_version = QEMU_PLUGIN_VERSION;

static uint64_t executed, before;

static void count_block(qemu_plugin_id_t id, struct qemu_plugin_tb *block)
{
    (void)id;
    for (size_t i = 0; i < qemu_plugin_tb_n_insns(block); i++)
        qemu_plugin_register_vcpu_insn_exec_inline(qemu_plugin_tb_get_insn(block, i), QEMU_PLUGIN_INLINE_ADD_U64,
                                                   &executed, 1);
}

static void write_line(uint64_t a1, uint64_t a2, uint64_t a3)
{
    char line[96];
    snprintf(line, sizeof line, "%" PRIu64 " %" PRIu64 " %" PRIu64 " %" PRIu64 "\n", a1, a2, a3, executed - before);
    qemu_plugin_outs(line);
    before = executed;
}

static void at_system_call(qemu_plugin_id_t id, unsigned cpu, int64_t number, uint64_t a1, uint64_t a2, uint64_t a3,
                           uint64_t a4, uint64_t a5, uint64_t a6, uint64_t a7, uint64_t a8)
{
    (void)id, (void)cpu, (void)a4, (void)a5, (void)a6, (void)a7, (void)a8;
    if (number == MARK)
        write_line(a1, a2, a3);
}

static void at_end(qemu_plugin_id_t id, void *data)
{
    (void)id, (void)data;
    write_line(0, 0, 0);
}

int qemu_plugin_install(qemu_plugin_id_t id, const qemu_info_t *info, int argc, char **argv)
{
    (void)info, (void)argc, (void)argv;
    qemu_plugin_register_vcpu_tb_trans_cb(id, count_block);
    qemu_plugin_register_vcpu_syscall_cb(id, at_system_call);
    qemu_plugin_register_atexit_cb(id, at_end, NULL);
    return 0;
}
