/* A plugin of qemu-user that counts the machine instructions between two marks, and how deep the stack went there.
 *
 * A mark is a system call that Linux does not have, with a word that nobody else uses: MARK, then what it marks. BEGIN comes with the
 * stack pointer, and END with nothing: each stretch is a line of the file that the option out=FILE names, instructions and bytes of stack.
 * CALLER comes before both, with the addresses between which the driver's own code stands: what makes the calls is not counted.
 *
 * Only calls are used that every version of the plugins' interface has in one form, so no header is needed. */
#include <inttypes.h>
#include <stddef.h>
#include <stdint.h>
#include <stdio.h>
#include <stdlib.h>
#include <string.h>

#ifndef PLUGIN_VERSION
#define PLUGIN_VERSION 1
#endif
#define EXPORT __attribute__((visibility("default")))
#define NUMBER 9999
#define MARK 0x4e6a756eULL
enum { END, BEGIN, CALLER };
/* Stores further below the mark's stack pointer are not to its stack. */
#define DEEPEST (1ULL << 23)

typedef uint64_t plugin_id;
struct block;
struct instruction;
enum { NO_REGISTERS = 0, STORES = 2 };

typedef void on_block(plugin_id, struct block *);
typedef void on_run(unsigned cpu, void *);
typedef void on_store(unsigned cpu, uint32_t info, uint64_t address, void *);
typedef void on_call(plugin_id, unsigned cpu, int64_t number, uint64_t, uint64_t, uint64_t, uint64_t, uint64_t, uint64_t, uint64_t,
                     uint64_t);

void qemu_plugin_register_vcpu_tb_trans_cb(plugin_id, on_block *);
void qemu_plugin_register_vcpu_insn_exec_cb(struct instruction *, on_run *, int flags, void *);
void qemu_plugin_register_vcpu_mem_cb(struct instruction *, on_store *, int flags, int kinds, void *);
void qemu_plugin_register_vcpu_syscall_cb(plugin_id, on_call *);
size_t qemu_plugin_tb_n_insns(const struct block *);
struct instruction *qemu_plugin_tb_get_insn(const struct block *, size_t);
uint64_t qemu_plugin_insn_vaddr(const struct instruction *);
EXPORT int qemu_plugin_version = PLUGIN_VERSION;

static FILE *out;
static uint64_t counted, start, top, lowest, caller, caller_end;

static void runs(unsigned cpu, void *unused) {
    counted++;
}

static void stores(unsigned cpu, uint32_t info, uint64_t address, void *unused) {
    if (address < lowest && top - address < DEEPEST)
        lowest = address;
}

/* Each instruction is counted by itself: the number that a block is said to have is one too many where its last would cross a page. */
static void translated(plugin_id id, struct block *block) {
    for (size_t i = 0; i < qemu_plugin_tb_n_insns(block); i++) {
        struct instruction *one = qemu_plugin_tb_get_insn(block, i);
        uint64_t at = qemu_plugin_insn_vaddr(one);
        qemu_plugin_register_vcpu_mem_cb(one, stores, NO_REGISTERS, STORES, NULL);
        if (at < caller || at >= caller_end)
            qemu_plugin_register_vcpu_insn_exec_cb(one, runs, NO_REGISTERS, NULL);
    }
}

static void called(plugin_id id, unsigned cpu, int64_t number, uint64_t mark, uint64_t kind, uint64_t x, uint64_t y, uint64_t e,
                   uint64_t f, uint64_t g, uint64_t h) {
    if (number != NUMBER || mark != MARK)
        return;
    if (kind == CALLER) {
        caller = x;
        caller_end = y;
    } else if (kind == BEGIN) {
        top = lowest = x;
        start = counted;
    } else {
        fprintf(out, "%" PRIu64 " %" PRIu64 "\n", counted - start, top - lowest);
        fflush(out);
        top = lowest = 0;
    }
}

EXPORT int qemu_plugin_install(plugin_id id, const void *about, int words, char **word) {
    for (int i = 0; i < words; i++)
        if (!strncmp(word[i], "out=", 4))
            out = fopen(word[i] + 4, "w");
    if (!out)
        return -1;
    qemu_plugin_register_vcpu_tb_trans_cb(id, translated);
    qemu_plugin_register_vcpu_syscall_cb(id, called);
    return 0;
}
