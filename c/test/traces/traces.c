/* SPDX-License-Identifier: ISC */
/* A plugin of qemu-user. Between two marks it sums the address of each instruction that runs and
 * each address that is read or written, in their order, and prints a line with the sum. So two runs
 * that differ in secrets alone print the same lines where no jump and no address depends on these.
 *
 *     qemu-.. -plugin traces.so,begin=ADDRESS,end=ADDRESS -d plugin -D LOG PROGRAM
 *
 * The marks are two functions of the program. The declarations are those of qemu-plugin.h, which
 * Debian doesn't package. */
#include <inttypes.h>
#include <stdbool.h>
#include <stddef.h>
#include <stdio.h>

typedef uint64_t qemu_plugin_id_t;
typedef struct qemu_info_t qemu_info_t;
struct qemu_plugin_tb;
struct qemu_plugin_insn;
typedef void (*translated_function)(qemu_plugin_id_t, struct qemu_plugin_tb *);
typedef void (*ran_function)(unsigned, void *);
typedef void (*accessed_function)(unsigned, uint32_t, uint64_t, void *);
void qemu_plugin_register_vcpu_tb_trans_cb(qemu_plugin_id_t, translated_function);
size_t qemu_plugin_tb_n_insns(const struct qemu_plugin_tb *);
struct qemu_plugin_insn *qemu_plugin_tb_get_insn(const struct qemu_plugin_tb *, size_t);
uint64_t qemu_plugin_insn_vaddr(const struct qemu_plugin_insn *);
void qemu_plugin_register_vcpu_insn_exec_cb(struct qemu_plugin_insn *, ran_function, int, void *);
void qemu_plugin_register_vcpu_mem_cb(struct qemu_plugin_insn *, accessed_function, int, int,
                                      void *);
void qemu_plugin_outs(const char *);

#define NO_REGISTERS 0
#define READS_AND_WRITES 3
#define SHOWN __attribute__((visibility("default")))

SHOWN int qemu_plugin_version = PLUGIN_VERSION;

static uint64_t begin, end, sum, num_run, num_accesses;
static bool is_open;

/* An odd factor and a shift, so that each address and its place count. */
static void add(uint64_t address) {
    sum = (sum ^ address) * UINT64_C(0x9e3779b97f4a7c15);
    sum ^= sum >> 29;
}

static void print(void) {
    char line[128];
    snprintf(line, sizeof line,
             "%" PRIu64 " instructions, %" PRIu64 " accesses, %016" PRIx64 "\n", num_run,
             num_accesses, sum);
    qemu_plugin_outs(line);
}

static void on_run(unsigned cpu, void *data) {
    uint64_t address = (uint64_t)(uintptr_t)data;
    (void)cpu;
    if (address == begin) is_open = true, sum = num_run = num_accesses = 0;
    if (address == end && is_open) is_open = false, print();
    if (is_open) num_run++, add(address);
}

static void on_access(unsigned cpu, uint32_t info, uint64_t address, void *data) {
    (void)cpu, (void)info, (void)data;
    if (is_open) num_accesses++, add(~address);
}

static void on_translation(qemu_plugin_id_t id, struct qemu_plugin_tb *block) {
    (void)id;
    for (size_t i = 0; i < qemu_plugin_tb_n_insns(block); i++) {
        struct qemu_plugin_insn *it = qemu_plugin_tb_get_insn(block, i);
        void *address = (void *)(uintptr_t)qemu_plugin_insn_vaddr(it);
        qemu_plugin_register_vcpu_insn_exec_cb(it, on_run, NO_REGISTERS, address);
        qemu_plugin_register_vcpu_mem_cb(it, on_access, NO_REGISTERS, READS_AND_WRITES, NULL);
    }
}

SHOWN int qemu_plugin_install(qemu_plugin_id_t id, const qemu_info_t *info, int count,
                              char **arguments) {
    (void)info;
    for (int i = 0; i < count; i++) {
        if (sscanf(arguments[i], "begin=%" SCNx64, &begin) == 1) continue;
        if (sscanf(arguments[i], "end=%" SCNx64, &end) != 1) return 1;
    }
    qemu_plugin_register_vcpu_tb_trans_cb(id, on_translation);
    return 0;
}
