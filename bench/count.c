/* SPDX-License-Identifier: MIT OR Apache-2.0 */
/* A plugin for qemu's user emulator (one built with plugins, as Debian's qemu-user is): counts the guest's instructions, which are the
 * same at every run. Each block of code that the emulator translates gets a counter of its own; at the end the file named by
 * `-plugin count.so,to=FILE` gets a line a block, ADDRESS INSTRUCTIONS MOVES FLOATS, by which they can be added up by function:
 * all instructions that it executed, those that only move something, and those that work on floats.
 *
 * The few declarations that are needed of qemu's plugin interface, version 1, stand here, since its header is not always installed. */
#include <stddef.h>
#include <stdint.h>
#include <stdio.h>
#include <stdlib.h>
#include <string.h>

#define SEEN __attribute__((visibility("default")))

typedef uint64_t plugin;
typedef struct qemu_plugin_tb code;
typedef struct qemu_plugin_insn instruction;
enum { ADD = 0 };
void qemu_plugin_register_vcpu_tb_trans_cb(plugin, void (*)(plugin, code *));
void qemu_plugin_register_vcpu_tb_exec_inline(code *, int operation, void *counter, uint64_t by);
void qemu_plugin_register_atexit_cb(plugin, void (*)(plugin, void *), void *);
size_t qemu_plugin_tb_n_insns(const code *);
uint64_t qemu_plugin_tb_vaddr(const code *);
instruction *qemu_plugin_tb_get_insn(const code *, size_t);
char *qemu_plugin_insn_disas(const instruction *);

SEEN int qemu_plugin_version = 1;

typedef struct counted {
    uint64_t address, length, moves, floats, times;
    struct counted *next;
} counted;

static counted *all;
static FILE *to;

/* By the mnemonic: mov.., vmov.. and unpck.. move; ..sd and ..pd of the rest work on floats. */
static void sort(counted *c, const char *text) {
    size_t end = strcspn(text, " ");
    if (strncmp(text, "mov", 3) == 0 || strncmp(text, "vmov", 4) == 0 || strncmp(text, "unpck", 5) == 0)
        c->moves++;
    else if (end > 2 && text[end - 1] == 'd' && (text[end - 2] == 's' || text[end - 2] == 'p'))
        c->floats++;
}

static void on_translation(plugin id, code *block) {
    (void)id;
    counted *c = calloc(1, sizeof *c);
    if (c == NULL) abort();
    c->address = qemu_plugin_tb_vaddr(block), c->length = qemu_plugin_tb_n_insns(block), c->next = all, all = c;
    for (size_t i = 0; i < c->length; i++) {
        char *text = qemu_plugin_insn_disas(qemu_plugin_tb_get_insn(block, i));
        if (text != NULL) sort(c, text);
        free(text);
    }
    qemu_plugin_register_vcpu_tb_exec_inline(block, ADD, &c->times, 1);
}

static void on_exit_of_guest(plugin id, void *unused) {
    (void)id, (void)unused;
    for (const counted *c = all; c != NULL; c = c->next) {
        if (c->times == 0) continue;
        uint64_t of[] = {c->address, c->length * c->times, c->moves * c->times, c->floats * c->times};
        for (int i = 0; i < 4; i++) fprintf(to, "%llu%c", (unsigned long long)of[i], i < 3 ? ' ' : '\n');
    }
    fclose(to);
}

SEEN int qemu_plugin_install(plugin id, const void *info, int argc, char **argv) {
    (void)info;
    if (argc != 1 || strncmp(argv[0], "to=", 3) != 0 || (to = fopen(argv[0] + 3, "w")) == NULL) return 1;
    qemu_plugin_register_vcpu_tb_trans_cb(id, on_translation);
    qemu_plugin_register_atexit_cb(id, on_exit_of_guest, NULL);
    return 0;
}
