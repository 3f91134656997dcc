/*
 * A plugin for qemu 7.2: compares what a program does between two posts with what it did there
 * before, instruction by instruction and address by address.
 *
 *   -plugin FILE,first=PLACE,again=PLACE,end=PLACE
 *
 * The posts are functions that the program calls for this (tests/secrets/traced.c); a place is
 * ADDRESS+SIZE, the first in hexadecimal. After `first` each instruction and each address that
 * it reads or writes is kept, until `end`; after `again` each is compared with what was kept.
 * Prints where it first differs, by the name of the function, and how many runs were kept and
 * compared. An Arm instruction that a condition holds back counts as one that is executed, but
 * not the address that it leaves alone.
 *
 * Debian has no header for plugins. What is used of it is declared here.
 */

#include <inttypes.h>
#include <stdio.h>
#include <stdlib.h>
#include <string.h>

struct qemu_plugin_tb;
struct qemu_plugin_insn;
size_t qemu_plugin_tb_n_insns(const struct qemu_plugin_tb *tb);
struct qemu_plugin_insn *qemu_plugin_tb_get_insn(const struct qemu_plugin_tb *tb, size_t i);
uint64_t qemu_plugin_insn_vaddr(const struct qemu_plugin_insn *insn);
const char *qemu_plugin_insn_symbol(const struct qemu_plugin_insn *insn);
void qemu_plugin_register_vcpu_tb_trans_cb(uint64_t id, void (*call)(uint64_t, struct qemu_plugin_tb *));
void qemu_plugin_register_vcpu_insn_exec_cb(struct qemu_plugin_insn *insn, void (*call)(unsigned, void *),
                                            int registers, void *data);
void qemu_plugin_register_vcpu_mem_cb(struct qemu_plugin_insn *insn,
                                      void (*call)(unsigned, uint32_t, uint64_t, void *), int registers,
                                      int read_write, void *data);
void qemu_plugin_register_atexit_cb(uint64_t id, void (*call)(uint64_t, void *), void *data);

#define EXPORTED __attribute__((visibility("default")))
EXPORTED int qemu_plugin_version = 1;
EXPORTED int qemu_plugin_install(uint64_t id, const void *about, int count, char **words);

enum { NO_REGISTERS = 0, READS_AND_WRITES = 3 };

/* An instruction, and its function. */
struct instruction {
    uint64_t at;
    const char *symbol;
};

/* The posts. */
enum { FIRST, AGAIN, END, POSTS };
static const char *const post_names[POSTS] = { "first=", "again=", "end=" };
static struct {
    uint64_t at, size;
} posts[POSTS];

/* What was kept: instructions and addresses in their order. */
static uint64_t *kept;
static size_t count, room, next;

static enum { IDLE, KEEPING, COMPARING } doing;
static uint64_t runs_kept, runs_compared, runs_that_differ;

static void differs(const struct instruction *at, const char *what)
{
    runs_that_differ++;
    doing = IDLE;
    fprintf(stderr, "traced: run %" PRIu64 " differs from the one kept: %s at %" PRIx64 " in %s\n",
            runs_kept + runs_compared, what, at->at, at->symbol ? at->symbol : "?");
}

static void note(const struct instruction *at, uint64_t value, const char *what)
{
    if (doing == KEEPING) {
        if (count == room) {
            room = room ? 2 * room : 1 << 16;
            kept = realloc(kept, room * sizeof *kept);
            if (!kept) {
                abort();
            }
        }
        kept[count++] = value;
    } else if (doing == COMPARING) {
        if (next == count || kept[next] != value) {
            differs(at, what);
        }
        next++;
    }
}

static int within(const struct instruction *at, int post)
{
    return at->at - posts[post].at < posts[post].size;
}

static void executed(unsigned processor, void *data)
{
    const struct instruction *const at = data;

    (void)processor;
    if (within(at, FIRST)) {
        runs_kept += doing != KEEPING;
        doing = KEEPING;
        count = 0;
    } else if (within(at, AGAIN)) {
        runs_compared += doing != COMPARING;
        doing = COMPARING;
        next = 0;
    } else if (within(at, END)) {
        if (doing == COMPARING && next != count) {
            differs(at, "it ends");
        }
        doing = IDLE;
    } else {
        note(at, at->at, "another instruction");
    }
}

static void accessed(unsigned processor, uint32_t about, uint64_t address, void *data)
{
    (void)processor;
    (void)about;
    /* Apart from instructions. */
    note(data, ~address, "another address");
}

static void translated(uint64_t id, struct qemu_plugin_tb *tb)
{
    size_t i;

    (void)id;
    for (i = 0; i < qemu_plugin_tb_n_insns(tb); i++) {
        struct qemu_plugin_insn *const insn = qemu_plugin_tb_get_insn(tb, i);
        struct instruction *const at = malloc(sizeof *at);

        if (!at) {
            abort();
        }
        at->at = qemu_plugin_insn_vaddr(insn);
        at->symbol = qemu_plugin_insn_symbol(insn);
        qemu_plugin_register_vcpu_insn_exec_cb(insn, executed, NO_REGISTERS, at);
        qemu_plugin_register_vcpu_mem_cb(insn, accessed, NO_REGISTERS, READS_AND_WRITES, at);
    }
}

static void ended(uint64_t id, void *data)
{
    (void)id;
    (void)data;
    fprintf(stderr, "traced: %" PRIu64 " runs kept, %" PRIu64 " compared, %" PRIu64 " differ\n", runs_kept,
            runs_compared, runs_that_differ);
}

int qemu_plugin_install(uint64_t id, const void *about, int words_count, char **words)
{
    int i, post;

    (void)about;
    for (i = 0; i < words_count; i++) {
        for (post = 0; post < POSTS; post++) {
            const size_t length = strlen(post_names[post]);
            char *size;

            if (strncmp(words[i], post_names[post], length) == 0) {
                /* The lowest bit of an Arm function's address says that its code is Thumb. */
                posts[post].at = strtoull(words[i] + length, &size, 16) & ~(uint64_t)1;
                posts[post].size = strtoull(size, NULL, 10);
            }
        }
    }
    if (!posts[FIRST].size || !posts[AGAIN].size || !posts[END].size) {
        fprintf(stderr, "traced: a post is missing\n");
        return 1;
    }
    qemu_plugin_register_vcpu_tb_trans_cb(id, translated);
    qemu_plugin_register_atexit_cb(id, ended, NULL);
    return 0;
}
