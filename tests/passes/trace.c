/* A plugin of qemu's user emulation that prints a line for each instruction, load and store, with its address: `I`, `L` or `S`. It
 * begins and ends with a store to the address that is its argument `mark=`. The declarations are those of qemu-plugin.h, version
 * 1, which Debian has in no package. */
#include <inttypes.h>
#include <stdbool.h>
#include <stddef.h>
#include <stdio.h>
#include <stdlib.h>
#include <string.h>

struct qemu_plugin_tb;
struct qemu_plugin_insn;
typedef void (*translated)(uint64_t id, struct qemu_plugin_tb *block);
typedef void (*executed)(unsigned cpu, void *address);
typedef void (*touched)(unsigned cpu, uint32_t how, uint64_t address, void *data);
void qemu_plugin_register_vcpu_tb_trans_cb(uint64_t id, translated f);
size_t qemu_plugin_tb_n_insns(const struct qemu_plugin_tb *block);
struct qemu_plugin_insn *qemu_plugin_tb_get_insn(const struct qemu_plugin_tb *block, size_t k);
uint64_t qemu_plugin_insn_vaddr(const struct qemu_plugin_insn *insn);
void qemu_plugin_register_vcpu_insn_exec_cb(struct qemu_plugin_insn *insn, executed f, int registers, void *data);
void qemu_plugin_register_vcpu_mem_cb(struct qemu_plugin_insn *insn, touched f, int registers, int kinds, void *data);
bool qemu_plugin_mem_is_store(uint32_t how);

int qemu_plugin_version = 1;
static uint64_t mark;
static bool on;

static void execute(unsigned cpu, void *address) {
    if (on)
        printf("I %" PRIx64 "\n", (uint64_t)(uintptr_t)address);
}

static void touch(unsigned cpu, uint32_t how, uint64_t address, void *data) {
    bool store = qemu_plugin_mem_is_store(how);
    bool turn = store && address == mark;
    if (on || turn)
        printf("%c %" PRIx64 "\n", store ? 'S' : 'L', address);
    if (turn) {
        on = !on;
        fflush(stdout); /* the emulator does not, when the program ends */
    }
}

static void translate(uint64_t id, struct qemu_plugin_tb *block) {
    for (size_t k = 0; k < qemu_plugin_tb_n_insns(block); k++) {
        struct qemu_plugin_insn *insn = qemu_plugin_tb_get_insn(block, k);
        qemu_plugin_register_vcpu_insn_exec_cb(insn, execute, 0, (void *)(uintptr_t)qemu_plugin_insn_vaddr(insn));
        qemu_plugin_register_vcpu_mem_cb(insn, touch, 0, 3, NULL);
    }
}

int qemu_plugin_install(uint64_t id, const void *info, int argc, char **argv) {
    for (int k = 0; k < argc; k++)
        if (strncmp(argv[k], "mark=", 5) == 0)
            mark = strtoull(argv[k] + 5, NULL, 16);
    qemu_plugin_register_vcpu_tb_trans_cb(id, translate);
    return 0;
}
