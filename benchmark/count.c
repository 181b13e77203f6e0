/* A plugin for qemu-user: counts the instructions that a program runs inside given functions, with what they call. Arguments: start=ADDRESS, where the
   program's code starts, in=ADDRESS, where such a function starts, and out=ADDRESS, where its caller goes on, each up to SITES times, all as in the
   program's file. It says `Collected : N`, as callgrind does. The declarations stand here because Debian's qemu-user comes without qemu-plugin.h. */
#include <inttypes.h>
#include <stdio.h>
#include <stdlib.h>
#include <string.h>

struct qemu_plugin_tb;
size_t qemu_plugin_tb_n_insns(const struct qemu_plugin_tb *);
uint64_t qemu_plugin_tb_vaddr(const struct qemu_plugin_tb *);
uint64_t qemu_plugin_start_code(void);
void qemu_plugin_register_vcpu_tb_exec_cb(struct qemu_plugin_tb *, void (*)(unsigned vcpu, void *), int flags, void *);
void qemu_plugin_register_vcpu_tb_trans_cb(uint64_t id, void (*)(uint64_t id, struct qemu_plugin_tb *));
void qemu_plugin_register_atexit_cb(uint64_t id, void (*)(uint64_t id, void *), void *);

enum { NO_REGISTERS = 0, SITES = 64, STAYS = 0, ENTERS = 1, LEAVES = 2 };
int qemu_plugin_version = 1;
static uint64_t all, start, in[SITES], out[SITES];
static int ins, outs, inside;

/* A block of instructions that run one after the other; a call, and what follows it, begins one. */
struct block {
    uint64_t size;
    int way;
};

static void ran(unsigned vcpu, void *given)
{
    struct block *block = given;
    if (block->way != STAYS)
        inside = block->way == ENTERS;
    if (inside)
        all += block->size;
}

static int among(const uint64_t *sites, int count, uint64_t address)
{
    for (int i = 0; i < count; i++)
        if (address == sites[i] + qemu_plugin_start_code() - start)
            return 1;
    return 0;
}

static void translated(uint64_t id, struct qemu_plugin_tb *code)
{
    uint64_t address = qemu_plugin_tb_vaddr(code);
    struct block *block = malloc(sizeof *block);
    block->size = qemu_plugin_tb_n_insns(code);
    block->way = among(in, ins, address) ? ENTERS : among(out, outs, address) ? LEAVES : STAYS;
    qemu_plugin_register_vcpu_tb_exec_cb(code, ran, NO_REGISTERS, block);
}

static void tell(uint64_t id, void *none)
{
    fprintf(stderr, "Collected : %" PRIu64 "\n", all);
}

int qemu_plugin_install(uint64_t id, const void *info, int words, char **word)
{
    for (int i = 0; i < words; i++) {
        if (!strncmp(word[i], "start=", 6))
            start = strtoull(word[i] + 6, NULL, 16);
        if (!strncmp(word[i], "in=", 3) && ins < SITES)
            in[ins++] = strtoull(word[i] + 3, NULL, 16);
        if (!strncmp(word[i], "out=", 4) && outs < SITES)
            out[outs++] = strtoull(word[i] + 4, NULL, 16);
    }
    qemu_plugin_register_vcpu_tb_trans_cb(id, translated);
    qemu_plugin_register_atexit_cb(id, tell, NULL);
    return 0;
}
