/* Counts the instructions that qemu-user runs, for bindings/benchmark_count.py on a machine that is not x86-64, where valgrind cannot run the archive:
 * qemu-x86_64 -plugin THIS PROGRAM .. prints "Collected : N" on standard error, as callgrind does. The declarations are those that qemu's plugin
 * interface, version 1, has; Debian ships no header for it. */
#include <stddef.h>
#include <stdint.h>
#include <stdio.h>

struct qemu_plugin_tb;
enum { ADD_64_BITS = 0 };

size_t qemu_plugin_tb_n_insns(const struct qemu_plugin_tb *block);
void qemu_plugin_register_vcpu_tb_trans_cb(uint64_t id, void (*seen)(uint64_t id, struct qemu_plugin_tb *block));
void qemu_plugin_register_vcpu_tb_exec_inline(struct qemu_plugin_tb *block, int what, void *where, uint64_t by);
void qemu_plugin_register_atexit_cb(uint64_t id, void (*ended)(uint64_t id, void *with), void *with);

int qemu_plugin_version = 1;
static uint64_t run;

static void translated(uint64_t id, struct qemu_plugin_tb *block)
{
    (void)id;
    qemu_plugin_register_vcpu_tb_exec_inline(block, ADD_64_BITS, &run, qemu_plugin_tb_n_insns(block));
}

static void ended(uint64_t id, void *with)
{
    (void)id;
    (void)with;
    fprintf(stderr, "Collected : %llu\n", (unsigned long long)run);
}

int qemu_plugin_install(uint64_t id, const void *info, int argc, char **argv)
{
    (void)info;
    (void)argc;
    (void)argv;
    qemu_plugin_register_vcpu_tb_trans_cb(id, translated);
    qemu_plugin_register_atexit_cb(id, ended, NULL);
    return 0;
}
