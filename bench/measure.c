/* How many instructions a program takes, and how deep its stack grows: a plugin for Debian's qemu-user. Each block of code adds its
   length whenever it is run; what wavers from run to run, by some hundreds, is the start of the process. The first store of a program
   is the return address that its entry pushes; from there down, the lowest address that is stored to within a mebibyte is the end of
   the stack. The few names of the plugin interface (version 1) that it needs stand here, since Debian ships no header. */
#include <inttypes.h>
#include <stddef.h>
#include <stdio.h>

typedef uint64_t id;
struct qemu_plugin_tb;
struct qemu_plugin_insn;
int qemu_plugin_version __attribute__((visibility("default"))) = 1;
void qemu_plugin_register_vcpu_tb_trans_cb(id, void (*)(id, struct qemu_plugin_tb *));
void qemu_plugin_register_vcpu_tb_exec_inline(struct qemu_plugin_tb *, int add, void *to, uint64_t by);
void qemu_plugin_register_vcpu_mem_cb(struct qemu_plugin_insn *, void (*)(unsigned, uint32_t, uint64_t, void *), int registers, int kind, void *);
void qemu_plugin_register_atexit_cb(id, void (*)(id, void *), void *);
size_t qemu_plugin_tb_n_insns(const struct qemu_plugin_tb *);
struct qemu_plugin_insn *qemu_plugin_tb_get_insn(const struct qemu_plugin_tb *, size_t);

enum { STORES = 2 };
static uint64_t taken, top, lowest;

static void stored(unsigned processor, uint32_t info, uint64_t address, void *nothing)
{
    (void)processor;
    (void)info;
    (void)nothing;
    if (top == 0)
        top = lowest = address;
    if (address < lowest && top - address < 1 << 20)
        lowest = address;
}

static void translated(id plugin, struct qemu_plugin_tb *block)
{
    size_t length = qemu_plugin_tb_n_insns(block);
    (void)plugin;
    qemu_plugin_register_vcpu_tb_exec_inline(block, 0, &taken, length);
    for (size_t i = 0; i < length; i++)
        qemu_plugin_register_vcpu_mem_cb(qemu_plugin_tb_get_insn(block, i), stored, 0, STORES, NULL);
}

static void ended(id plugin, void *nothing)
{
    (void)plugin;
    (void)nothing;
    fprintf(stderr, "instructions %" PRIu64 "\nstack %" PRIu64 "\n", taken, top - lowest);
}

__attribute__((visibility("default"))) int qemu_plugin_install(id plugin, const void *info, int argc, char **argv)
{
    (void)info;
    (void)argc;
    (void)argv;
    qemu_plugin_register_vcpu_tb_trans_cb(plugin, translated);
    qemu_plugin_register_atexit_cb(plugin, ended, NULL);
    return 0;
}
