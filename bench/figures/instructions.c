/* A plugin of QEMU that counts how often each instruction of a firmware is executed:
 *
 *     qemu-system-arm -plugin instructions.so,base=0,octets=262144,out=FILE ..
 *
 * FILE has a number of 64 bits for each two octets from `base` on, and can be read while QEMU runs. Debian has no header of this interface: what is used
 * of it is declared here (version 1). */
#include <fcntl.h>
#include <stdbool.h>
#include <stddef.h>
#include <stdint.h>
#include <stdlib.h>
#include <string.h>
#include <sys/mman.h>
#include <unistd.h>

struct qemu_plugin_tb;
struct qemu_plugin_insn;
struct qemu_info;
typedef uint64_t plugin_id;

int qemu_plugin_version = 1;

void qemu_plugin_register_vcpu_tb_trans_cb(plugin_id id, void (*translated)(plugin_id id, struct qemu_plugin_tb *block));
size_t qemu_plugin_tb_n_insns(const struct qemu_plugin_tb *block);
struct qemu_plugin_insn *qemu_plugin_tb_get_insn(const struct qemu_plugin_tb *block, size_t number);
uint64_t qemu_plugin_insn_vaddr(const struct qemu_plugin_insn *instruction);
/* The operation 0 adds a number to the place. */
void qemu_plugin_register_vcpu_insn_exec_inline(struct qemu_plugin_insn *instruction, int operation, void *place, uint64_t number);
int qemu_plugin_install(plugin_id id, const struct qemu_info *info, int count, char **words);

static uint64_t *counts;
static uint64_t base, octets;

static void translated(plugin_id id, struct qemu_plugin_tb *block)
{
    (void)id;
    for (size_t i = 0; i < qemu_plugin_tb_n_insns(block); i++) {
        struct qemu_plugin_insn *instruction = qemu_plugin_tb_get_insn(block, i);
        uint64_t at = qemu_plugin_insn_vaddr(instruction) - base;
        if (at < octets)
            qemu_plugin_register_vcpu_insn_exec_inline(instruction, 0, &counts[at / 2], 1);
    }
}

int qemu_plugin_install(plugin_id id, const struct qemu_info *info, int count, char **words)
{
    int file = -1;
    (void)info;
    for (int i = 0; i < count; i++) {
        if (strncmp(words[i], "base=", 5) == 0)
            base = strtoull(words[i] + 5, NULL, 0);
        else if (strncmp(words[i], "octets=", 7) == 0)
            octets = strtoull(words[i] + 7, NULL, 0);
        else if (strncmp(words[i], "out=", 4) == 0)
            file = open(words[i] + 4, O_RDWR | O_CREAT | O_TRUNC, 0644);
    }
    if (file < 0 || octets == 0 || ftruncate(file, (off_t)(octets * 4)) != 0)
        return 1;
    counts = mmap(NULL, octets * 4, PROT_READ | PROT_WRITE, MAP_SHARED, file, 0);
    if (counts == MAP_FAILED)
        return 1;
    qemu_plugin_register_vcpu_tb_trans_cb(id, translated);
    return 0;
}
