/* seen.c: breakpoints on the archive's basic blocks, and counters for libFuzzer. Only for x86-64. */
#define _GNU_SOURCE
#include "seen.h"

#include <signal.h>
#include <stdio.h>
#include <string.h>
#include <sys/mman.h>
#include <ucontext.h>

#include "chase.h"

enum { PAGE = 4096, BREAKPOINT = 0xcc, BLOCKS_MOST = 1 << 13, COARSE = 9 };
enum { KINDS = CALLS * ANSWERS, LISTS = 3, TABLE = 256 };

/* The counters; libFuzzer clears them before each run. */
struct counters {
    uint8_t block[BLOCKS_MOST];
    uint8_t answer[KINDS + 1][KINDS];
    uint8_t steps[4][COARSE];
    uint8_t lists[COARSE][COARSE][COARSE];
    uint8_t tables[LISTS][COARSE][COARSE][COARSE];
    uint8_t created[TABLE], keys[TABLE], facts[TABLE];
    uint8_t merged[COARSE][COARSE];
    uint8_t depth[COARSE];
};
__attribute__((section("__libfuzzer_extra_counters"))) struct counters seen_counters;

static uint8_t *blocks[BLOCKS_MOST], before[BLOCKS_MOST]; /* where each block begins, and its first byte */
static uint8_t met[BLOCKS_MOST];
static size_t block_count;
static size_t last_kind; /* the call before that was not refused, and its answer; KINDS if there is none */

/* Lets the pages of the blocks be touched as `how` says. */
static void allow(int how)
{
    const uintptr_t first = (uintptr_t)blocks[0] / PAGE * PAGE, last = (uintptr_t)blocks[block_count - 1];
    if (mprotect((void *)first, last - first + 1, how) != 0)
        lent_fail("breakpoints cannot be put or taken away");
}

/* A breakpoint is met: its byte is put back, and the program goes on there. */
HANDLER static void reached(int number, siginfo_t *info, void *context)
{
    greg_t *next = ((ucontext_t *)context)->uc_mcontext.gregs + REG_RIP;
    uint8_t *at = (uint8_t *)(uintptr_t)*next - 1;
    size_t low = 0, high = block_count;
    (void)number;
    (void)info;
    while (low + 1 < high) {
        const size_t middle = (low + high) / 2;
        *(blocks[middle] <= at ? &low : &high) = middle;
    }
    if (block_count == 0 || blocks[low] != at)
        lent_fail("a breakpoint at %p, where none was put", (void *)at);
    allow(PROT_READ | PROT_WRITE | PROT_EXEC);
    *at = before[low];
    allow(PROT_READ | PROT_EXEC);
    met[low] = 1;
    *next = (greg_t)(uintptr_t)at;
    seen_counters.block[low] = 1;
}

void seen_begin(const char *name)
{
    FILE *file = fopen(name, "r");
    struct sigaction action = {.sa_flags = SA_SIGINFO | SA_ONSTACK};
    uintmax_t address;
    while (file && fscanf(file, "%jx", &address) == 1) {
        if (block_count == BLOCKS_MOST || (block_count > 0 && address <= (uintptr_t)blocks[block_count - 1]))
            lent_fail("%s has too many blocks, or they do not rise", name);
        blocks[block_count++] = (uint8_t *)(uintptr_t)address;
    }
    if (!file || fclose(file) != 0 || block_count == 0)
        lent_fail("%s: no blocks", name);
    action.sa_sigaction = reached;
    sigfillset(&action.sa_mask);
    sigaction(SIGTRAP, &action, NULL);
    allow(PROT_READ | PROT_WRITE | PROT_EXEC);
    for (size_t i = 0; i < block_count; i++) {
        before[i] = *blocks[i];
        *blocks[i] = BREAKPOINT;
    }
    allow(PROT_READ | PROT_EXEC);
}

void seen_run(void)
{
    last_kind = KINDS;
}

static void count(uint8_t *counter)
{
    *counter += *counter < 255;
}

/* 0, 1, 2, to 4, to 8, .. to 128. */
static size_t coarse(size_t number)
{
    size_t step = 0;
    while (number > (step ? (size_t)1 << (step - 1) : 0) && step < COARSE - 1)
        step++;
    return step;
}

/* What a sheet has. */
static void see_sheet(const uint8_t *sheet, size_t list)
{
    const size_t created = sheet[4], keys = sheet[6], facts = sheet[8];
    size_t merged = created, depth = 0;
    uint64_t living = 0;
    for (size_t i = 0; i < keys; i++)
        living |= (uint64_t)1 << sheet[16 + 8 * i + 7] % 64;
    for (; living; living &= living - 1)
        merged--;
    for (size_t i = 0; i < created; i++)
        depth = sheet[2064 + i] > depth ? sheet[2064 + i] : depth;
    count(&seen_counters.tables[list][coarse(created)][coarse(keys)][coarse(facts)]);
    count(&seen_counters.created[created]);
    count(&seen_counters.keys[keys]);
    count(&seen_counters.facts[facts]);
    count(&seen_counters.merged[coarse(created)][coarse(merged)]);
    count(&seen_counters.depth[coarse(depth)]);
}

/* What a pool has that is to be sound. */
static void see_pool(const uint8_t *pool)
{
    const uint8_t *lengths = pool + 12;
    count(&seen_counters.lists[coarse(lengths[0])][coarse(lengths[1])][coarse(lengths[2])]);
    for (size_t list = 0; list < LISTS; list++) {
        const uint8_t *slots = pool + 16 + 64 * list;
        const size_t len = lengths[list];
        if (len > 0)
            see_sheet(pool + CHASE_POOL_SIZE(slots[0] % CHASE_SLOTS_MOST), list);
        if (len > 1)
            see_sheet(pool + CHASE_POOL_SIZE(slots[len - 1] % CHASE_SLOTS_MOST), list);
    }
}

void seen_call(const struct call *call, struct answer answer, const struct buffer *pool)
{
    const size_t kind = call->which * ANSWERS + answer.stop;
    const int refused = answer.stop >= 1 && answer.stop <= 13;
    count(&seen_counters.answer[refused ? KINDS : last_kind][kind]);
    if (refused)
        return;
    last_kind = kind;
    if (call->which == CALL_RUN)
        count(&seen_counters.steps[call->given[0] % 4][coarse(answer.steps)]);
    see_pool(pool->at);
}

void seen_forget(void)
{
    memset(&seen_counters, 0, sizeof seen_counters);
}

void seen_print(void)
{
    size_t reached_count = 0;
    for (size_t i = 0; i < block_count; i++)
        reached_count += met[i];
    printf("blocks of the archive: %zu, reached %zu\n", block_count, reached_count);
    fflush(stdout);
    if (reached_count == 0 && lent_calls > 0)
        lent_fail("calls were made, and no block of the archive was reached");
    for (size_t i = 0; i < block_count; i++)
        if (!met[i])
            fprintf(stderr, "not reached: %p\n", (void *)blocks[i]);
}
