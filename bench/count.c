// A plugin for qemu-user: counts the guest instructions that a program runs, all of them, its start
// and its libraries included, and writes their number to the file that out=FILE names.
// A program may set marks: system calls of the number MARK, which no kernel has.
// - marks=FILE: the count so far at each mark goes to FILE, one line a mark. So a single call's cost can be had.
// - blocks=FILE: how often each block of instructions ran between an odd mark and the next even one: lines of
//   address, instructions, runs and the machine code in hex. So it can be seen what ran.
// What is to be taken off is left to the caller. (API version 1; tried with qemu 7.2.)
#include <stdbool.h>
#include <stddef.h>
#include <stdint.h>
#include <stdio.h>
#include <stdlib.h>
#include <string.h>

// What is used of qemu-plugin.h, which Debian's package does not have.
typedef uint64_t qemu_plugin_id_t;
typedef struct qemu_info_t qemu_info_t;
struct qemu_plugin_tb;
struct qemu_plugin_insn;
enum qemu_plugin_op { QEMU_PLUGIN_INLINE_ADD_U64 };
void qemu_plugin_register_vcpu_tb_trans_cb(qemu_plugin_id_t, void (*)(qemu_plugin_id_t, struct qemu_plugin_tb *));
void qemu_plugin_register_vcpu_tb_exec_inline(struct qemu_plugin_tb *, enum qemu_plugin_op, void *, uint64_t);
void qemu_plugin_register_vcpu_syscall_cb(qemu_plugin_id_t, void (*)(qemu_plugin_id_t, unsigned, int64_t, uint64_t, uint64_t, uint64_t,
                                                                     uint64_t, uint64_t, uint64_t, uint64_t, uint64_t));
void qemu_plugin_register_atexit_cb(qemu_plugin_id_t, void (*)(qemu_plugin_id_t, void *), void *);
size_t qemu_plugin_tb_n_insns(const struct qemu_plugin_tb *);
uint64_t qemu_plugin_tb_vaddr(const struct qemu_plugin_tb *);
struct qemu_plugin_insn *qemu_plugin_tb_get_insn(const struct qemu_plugin_tb *, size_t);
const void *qemu_plugin_insn_data(const struct qemu_plugin_insn *);
size_t qemu_plugin_insn_size(const struct qemu_plugin_insn *);

int qemu_plugin_version = 1;

#define MARK 0x534e41

static uint64_t count;
static char out[4096];
static FILE *marks, *blocks;

// A block: what it is, how often it has run, how often at the last odd mark, and how often between marks.
struct block {
    uint64_t address, runs, at_mark, within;
    size_t instructions, length;
    unsigned char *code;
    struct block *next;
};
static struct block *all;

// The block of this translation: a known one, where the same code at the same place is translated anew.
static struct block *block_of(const struct qemu_plugin_tb *tb) {
    size_t n = qemu_plugin_tb_n_insns(tb), length = 0;
    uint64_t address = qemu_plugin_tb_vaddr(tb);
    for (size_t i = 0; i < n; i++)
        length += qemu_plugin_insn_size(qemu_plugin_tb_get_insn(tb, i));
    for (struct block *b = all; b; b = b->next)
        if (b->address == address && b->instructions == n && b->length == length)
            return b;
    struct block *b = calloc(1, sizeof *b);
    unsigned char *code = malloc(length + 1);
    if (!b || !code)
        abort();
    *b = (struct block){.address = address, .instructions = n, .length = length, .code = code, .next = all};
    for (size_t i = 0; i < n; i++) {
        struct qemu_plugin_insn *insn = qemu_plugin_tb_get_insn(tb, i);
        memcpy(code, qemu_plugin_insn_data(insn), qemu_plugin_insn_size(insn));
        code += qemu_plugin_insn_size(insn);
    }
    return all = b;
}

// Each time that a block runs, as many instructions as it has are added.
static void translated(qemu_plugin_id_t id, struct qemu_plugin_tb *tb) {
    (void)id;
    qemu_plugin_register_vcpu_tb_exec_inline(tb, QEMU_PLUGIN_INLINE_ADD_U64, &count, qemu_plugin_tb_n_insns(tb));
    if (blocks)
        qemu_plugin_register_vcpu_tb_exec_inline(tb, QEMU_PLUGIN_INLINE_ADD_U64, &block_of(tb)->runs, 1);
}

static void note_blocks(bool odd) {
    for (struct block *b = all; b; b = b->next) {
        if (!odd)
            b->within += b->runs - b->at_mark;
        b->at_mark = b->runs;
    }
}

// The block that a system call ends has been counted whole by then.
static void called(qemu_plugin_id_t id, unsigned cpu, int64_t number, uint64_t a1, uint64_t a2, uint64_t a3, uint64_t a4,
                   uint64_t a5, uint64_t a6, uint64_t a7, uint64_t a8) {
    static bool odd;
    (void)id, (void)cpu, (void)a1, (void)a2, (void)a3, (void)a4, (void)a5, (void)a6, (void)a7, (void)a8;
    if (number != MARK)
        return;
    odd = !odd;
    if (marks)
        fprintf(marks, "%llu\n", (unsigned long long)count);
    if (blocks)
        note_blocks(odd);
}

static void write_blocks(void) {
    for (struct block *b = all; b; b = b->next) {
        if (!b->within)
            continue;
        fprintf(blocks, "%llx %zu %llu ", (unsigned long long)b->address, b->instructions, (unsigned long long)b->within);
        for (size_t i = 0; i < b->length; i++)
            fprintf(blocks, "%02x", b->code[i]);
        fputc('\n', blocks);
    }
    fclose(blocks);
}

static void ended(qemu_plugin_id_t id, void *data) {
    (void)id;
    (void)data;
    if (marks)
        fclose(marks);
    if (blocks)
        write_blocks();
    FILE *f = fopen(out, "w");
    if (!f)
        return;
    fprintf(f, "%llu\n", (unsigned long long)count);
    fclose(f);
}

int qemu_plugin_install(qemu_plugin_id_t id, const qemu_info_t *info, int argc, char **argv) {
    (void)info;
    for (int i = 0; i < argc; i++) {
        if (!strncmp(argv[i], "out=", 4) && strlen(argv[i] + 4) < sizeof out)
            strcpy(out, argv[i] + 4);
        if (!strncmp(argv[i], "marks=", 6) && !(marks = fopen(argv[i] + 6, "w")))
            return 1;
        if (!strncmp(argv[i], "blocks=", 7) && !(blocks = fopen(argv[i] + 7, "w")))
            return 1;
    }
    if (!*out)
        return 1;
    qemu_plugin_register_vcpu_tb_trans_cb(id, translated);
    qemu_plugin_register_vcpu_syscall_cb(id, called);
    qemu_plugin_register_atexit_cb(id, ended, NULL);
    return 0;
}
