/* A plugin of QEMU's user emulators (their plugin interface, version 1) that counts the instructions of what they run. At each write to
   descriptor 200, which the measuring program does not open, it tells the number of bytes of that write, which is the mark's number, and
   the instructions since the last mark. */
#include <stdint.h>
#include <stdio.h>

typedef uint64_t plugin_id;
struct block;
enum operation { ADD };

int qemu_plugin_version = 1;

extern void qemu_plugin_register_vcpu_tb_trans_cb(plugin_id, void (*)(plugin_id, struct block *));
extern size_t qemu_plugin_tb_n_insns(const struct block *);
extern void qemu_plugin_register_vcpu_tb_exec_inline(struct block *, enum operation, void *, uint64_t);
extern void qemu_plugin_register_vcpu_syscall_cb(plugin_id, void (*)(plugin_id, unsigned, int64_t, uint64_t, uint64_t, uint64_t, uint64_t,
                                                                     uint64_t, uint64_t, uint64_t, uint64_t));

enum { WRITE = 1, MARKS = 200 };

static uint64_t counted, told;

static void translated(plugin_id id, struct block *block) {
    qemu_plugin_register_vcpu_tb_exec_inline(block, ADD, &counted, qemu_plugin_tb_n_insns(block));
}

static void called(plugin_id id, unsigned processor, int64_t number, uint64_t descriptor, uint64_t bytes, uint64_t n, uint64_t a, uint64_t b,
                   uint64_t c, uint64_t d, uint64_t e) {
    if (number == WRITE && descriptor == MARKS) {
        fprintf(stderr, "mark %llu %llu\n", (unsigned long long)n, (unsigned long long)(counted - told));
        told = counted;
    }
}

__attribute__((visibility("default"))) int qemu_plugin_install(plugin_id id, const void *information, int count, char **words) {
    qemu_plugin_register_vcpu_tb_trans_cb(id, translated);
    qemu_plugin_register_vcpu_syscall_cb(id, called);
    return 0;
}
