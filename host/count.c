/*
 * A plugin for Debian's qemu-user that counts the instructions of a program: a block of them adds its number when it is run. The total
 * goes to the error output when the program ends. With from=A,bytes=N (hexadecimal) what stands in those N bytes of code is not counted.
 * With trace=1 each instruction and each store goes to the error output instead, as valgrind's lackey writes them.
 * Debian has no package with QEMU's header, so what is used of it is declared here; it is the same in version 1 of the interface, which
 * QEMU has before 9.0, and in version 2, the least that it takes since. Compiled with -DVERSION=1 or 2.
 */
#include <inttypes.h>
#include <stdbool.h>
#include <stddef.h>
#include <stdint.h>
#include <stdio.h>
#include <stdlib.h>
#include <string.h>

typedef uint64_t qemu_plugin_id_t;
struct qemu_info;
struct qemu_plugin_tb;
struct qemu_plugin_insn;
enum { MEM_W = 2 };

size_t qemu_plugin_tb_n_insns(const struct qemu_plugin_tb *block);
uint64_t qemu_plugin_tb_vaddr(const struct qemu_plugin_tb *block);
void qemu_plugin_register_vcpu_tb_trans_cb(qemu_plugin_id_t id, void (*call)(qemu_plugin_id_t, struct qemu_plugin_tb *));
void qemu_plugin_register_vcpu_tb_exec_cb(struct qemu_plugin_tb *block, void (*call)(unsigned, void *), int flags, void *with);
void qemu_plugin_register_atexit_cb(qemu_plugin_id_t id, void (*call)(qemu_plugin_id_t, void *), void *with);

struct qemu_plugin_insn *qemu_plugin_tb_get_insn(const struct qemu_plugin_tb *block, size_t i);
uint64_t qemu_plugin_insn_vaddr(const struct qemu_plugin_insn *instruction);
unsigned qemu_plugin_mem_size_shift(uint32_t info);
bool qemu_plugin_mem_is_store(uint32_t info);
void qemu_plugin_register_vcpu_insn_exec_cb(struct qemu_plugin_insn *instruction, void (*call)(unsigned, void *), int flags, void *with);
void qemu_plugin_register_vcpu_mem_cb(struct qemu_plugin_insn *instruction, void (*call)(unsigned, uint32_t, uint64_t, void *), int flags, int access, void *with);

extern int qemu_plugin_version;
int qemu_plugin_install(qemu_plugin_id_t id, const struct qemu_info *info, int argc, char **argv);

int qemu_plugin_version = VERSION;
static uint64_t count, from, bytes;
static bool trace;

static void run(unsigned processor, void *instructions)
{
    (void)processor;
    count += (uintptr_t)instructions;
}

static void executed(unsigned processor, void *address)
{
    (void)processor;
    fprintf(stderr, "I  %08" PRIxPTR ",1\n", (uintptr_t)address);
}

static void stored(unsigned processor, uint32_t info, uint64_t address, void *nothing)
{
    (void)processor;
    (void)nothing;
    if (qemu_plugin_mem_is_store(info))
        fprintf(stderr, " S %08" PRIx64 ",%u\n", address, 1u << qemu_plugin_mem_size_shift(info));
}

static void translated(qemu_plugin_id_t id, struct qemu_plugin_tb *block)
{
    (void)id;
    for (size_t i = 0; trace && i < qemu_plugin_tb_n_insns(block); i++) {
        struct qemu_plugin_insn *instruction = qemu_plugin_tb_get_insn(block, i);

        qemu_plugin_register_vcpu_insn_exec_cb(instruction, executed, 0, (void *)(uintptr_t)qemu_plugin_insn_vaddr(instruction));
        qemu_plugin_register_vcpu_mem_cb(instruction, stored, 0, MEM_W, NULL);
    }
    if (!trace && qemu_plugin_tb_vaddr(block) - from >= bytes)
        qemu_plugin_register_vcpu_tb_exec_cb(block, run, 0, (void *)(uintptr_t)qemu_plugin_tb_n_insns(block));
}

static void ended(qemu_plugin_id_t id, void *nothing)
{
    (void)id;
    (void)nothing;
    fprintf(stderr, "Collected : %" PRIu64 "\n", count);
}

int qemu_plugin_install(qemu_plugin_id_t id, const struct qemu_info *info, int argc, char **argv)
{
    (void)info;
    for (int i = 0; i < argc; i++)
        if (strncmp(argv[i], "from=", 5) == 0)
            from = strtoull(argv[i] + 5, NULL, 16);
        else if (strncmp(argv[i], "bytes=", 6) == 0)
            bytes = strtoull(argv[i] + 6, NULL, 16);
        else if (strcmp(argv[i], "trace=1") == 0)
            trace = true;
    qemu_plugin_register_vcpu_tb_trans_cb(id, translated);
    qemu_plugin_register_atexit_cb(id, ended, NULL);
    return 0;
}
