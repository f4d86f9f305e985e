/* A plugin of qemu-user 7.2: counts the x86-64 instructions that a program executes between two marks. A mark is the system call
   sched_yield; the first opens a stretch, the second closes it, and so on. Each stretch's count is a line on the standard error stream;
   with the argument by=symbol there is instead, at the end, a line for each function that they were in, all stretches together. */
#include <inttypes.h>
#include <stdbool.h>
#include <stddef.h>
#include <stdint.h>
#include <stdio.h>
#include <stdlib.h>
#include <string.h>

/* What is used of qemu-plugin.h, version 1; Debian's qemu-user comes without that header. */
typedef uint64_t qemu_plugin_id_t;
struct qemu_plugin_tb;
struct qemu_plugin_insn;
enum qemu_plugin_op { QEMU_PLUGIN_INLINE_ADD_U64 };
typedef void (*block_translated)(qemu_plugin_id_t id, struct qemu_plugin_tb *block);
typedef void (*system_called)(qemu_plugin_id_t id, unsigned int cpu, int64_t number, uint64_t a1, uint64_t a2, uint64_t a3, uint64_t a4,
                              uint64_t a5, uint64_t a6, uint64_t a7, uint64_t a8);
typedef void (*ended)(qemu_plugin_id_t id, void *unused);
void qemu_plugin_register_vcpu_tb_trans_cb(qemu_plugin_id_t id, block_translated);
void qemu_plugin_register_vcpu_syscall_cb(qemu_plugin_id_t id, system_called);
void qemu_plugin_register_atexit_cb(qemu_plugin_id_t id, ended, void *unused);
void qemu_plugin_register_vcpu_insn_exec_inline(struct qemu_plugin_insn *instruction, enum qemu_plugin_op, void *counter, uint64_t added);
size_t qemu_plugin_tb_n_insns(const struct qemu_plugin_tb *block);
struct qemu_plugin_insn *qemu_plugin_tb_get_insn(const struct qemu_plugin_tb *block, size_t number);
const char *qemu_plugin_insn_symbol(const struct qemu_plugin_insn *instruction);

/* The emulator asks for these two by name. */
int qemu_plugin_version = 1;
int qemu_plugin_install(qemu_plugin_id_t id, const void *info, int argc, char **argv);

/* its number for x86-64 */
enum { SCHED_YIELD = 24 };

/* A function, or all of them; kept until the end, since translated blocks hold the counter's place. */
struct counted {
    uint64_t executed;
    uint64_t when_opened;
    uint64_t in_stretches;
    const char *symbol;
    struct counted *next;
};

static struct counted whole;
static struct counted *functions;
static bool by_symbol;
static bool is_open;

static struct counted *of_symbol(const char *symbol)
{
    const char *name = symbol == NULL || *symbol == 0 ? "(no symbol)" : symbol;
    struct counted *found = functions;
    while (found != NULL && strcmp(found->symbol, name) != 0)
        found = found->next;
    if (found == NULL) {
        found = calloc(1, sizeof *found);
        if (found == NULL)
            abort();
        found->symbol = name;
        found->next = functions;
        functions = found;
    }
    return found;
}

static void add_each(struct qemu_plugin_insn *instruction, struct counted *counted, uint64_t added)
{
    qemu_plugin_register_vcpu_insn_exec_inline(instruction, QEMU_PLUGIN_INLINE_ADD_U64, &counted->executed, added);
}

/* All but a block's last instruction are added up at the first. The last is counted by itself: where it lies on two pages the emulator
   takes it off the block again, but version 7.2 leaves it in the block's number of instructions. */
static void on_block(qemu_plugin_id_t id, struct qemu_plugin_tb *block)
{
    size_t all = qemu_plugin_tb_n_insns(block);
    size_t number;
    (void)id;
    if (!by_symbol) {
        add_each(qemu_plugin_tb_get_insn(block, 0), &whole, all - 1);
        add_each(qemu_plugin_tb_get_insn(block, all - 1), &whole, 1);
        return;
    }
    for (number = 0; number < all; number++) {
        struct qemu_plugin_insn *instruction = qemu_plugin_tb_get_insn(block, number);
        add_each(instruction, of_symbol(qemu_plugin_insn_symbol(instruction)), 1);
    }
}

static void on_mark(struct counted *counted)
{
    if (is_open)
        counted->in_stretches += counted->executed - counted->when_opened;
    else
        counted->when_opened = counted->executed;
}

static void on_system_call(qemu_plugin_id_t id, unsigned int cpu, int64_t number, uint64_t a1, uint64_t a2, uint64_t a3, uint64_t a4,
                           uint64_t a5, uint64_t a6, uint64_t a7, uint64_t a8)
{
    struct counted *function;
    (void)id, (void)cpu, (void)a1, (void)a2, (void)a3, (void)a4, (void)a5, (void)a6, (void)a7, (void)a8;
    if (number != SCHED_YIELD)
        return;
    for (function = functions; function != NULL; function = function->next)
        on_mark(function);
    on_mark(&whole);
    if (is_open && !by_symbol) {
        fprintf(stderr, "%" PRIu64 "\n", whole.in_stretches);
        whole.in_stretches = 0;
    }
    is_open = !is_open;
}

static void at_end(qemu_plugin_id_t id, void *unused)
{
    struct counted *function;
    (void)id, (void)unused;
    for (function = functions; function != NULL; function = function->next)
        if (function->in_stretches > 0)
            fprintf(stderr, "%" PRIu64 " %s\n", function->in_stretches, function->symbol);
}

int qemu_plugin_install(qemu_plugin_id_t id, const void *info, int argc, char **argv)
{
    (void)info;
    by_symbol = argc == 1 && strcmp(argv[0], "by=symbol") == 0;
    if (argc > 0 && !by_symbol)
        return -1;
    qemu_plugin_register_vcpu_tb_trans_cb(id, on_block);
    qemu_plugin_register_vcpu_syscall_cb(id, on_system_call);
    qemu_plugin_register_atexit_cb(id, at_end, NULL);
    return 0;
}
