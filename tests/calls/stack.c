/* stack.c: how much stack the exported calls take (tests/calls/stack). Stands around the archive's own calls by the
 * linker's --wrap: each runs on a stack of its own, filled with one byte and fenced below, and the lowest word that is
 * another one afterwards says how far down it went. What is counted begins at the frame of the function that makes the
 * call. At its end the program prints the most for each call on standard error. */
#define _GNU_SOURCE
#include <stdio.h>
#include <stdlib.h>
#include <string.h>
#include <sys/mman.h>
#include <ucontext.h>

#include "chase.h"

uint32_t __real_chase_open(const uint8_t *, size_t, uint8_t *, size_t, uint32_t, uint32_t);
uint32_t __real_chase_step(const uint8_t *, size_t, uint8_t *, size_t, uint32_t, uint32_t);
struct chase_ran __real_chase_run(const uint8_t *, size_t, uint8_t *, size_t, uint32_t, uint32_t, uint32_t);
uint32_t __real_chase_take(const uint8_t *, size_t, uint8_t *, size_t, uint32_t, uint8_t *, size_t);

uint32_t __wrap_chase_open(const uint8_t *, size_t, uint8_t *, size_t, uint32_t, uint32_t);
uint32_t __wrap_chase_step(const uint8_t *, size_t, uint8_t *, size_t, uint32_t, uint32_t);
struct chase_ran __wrap_chase_run(const uint8_t *, size_t, uint8_t *, size_t, uint32_t, uint32_t, uint32_t);
uint32_t __wrap_chase_take(const uint8_t *, size_t, uint8_t *, size_t, uint32_t, uint8_t *, size_t);

enum { STACK = 1 << 16, FENCE = 4096, WORDS = STACK / sizeof(uint64_t), FILL = 0x5c };
enum { OPEN, STEP, RUN, TAKE, CALLS };

/* The call to be made, and what it answered. */
static struct {
    int which;
    const uint8_t *book;
    uint8_t *pool, *out;
    size_t book_len, pool_len, out_len;
    uint32_t given[3];
    struct chase_ran ran;
} now;

static uint64_t *stack; /* its lowest word */
static size_t most[CALLS];
static ucontext_t outside, inside;

static void print_most(void)
{
    fprintf(stderr, "stack: open %zu, step %zu, run %zu, take %zu bytes\n", most[OPEN], most[STEP], most[RUN],
            most[TAKE]);
}

static void begin(void)
{
    uint8_t *room = mmap(NULL, FENCE + STACK, PROT_READ | PROT_WRITE, MAP_PRIVATE | MAP_ANONYMOUS, -1, 0);
    if (room == MAP_FAILED || mprotect(room, FENCE, PROT_NONE) != 0)
        abort();
    stack = (uint64_t *)(void *)(room + FENCE);
    memset(stack, FILL, STACK);
    atexit(print_most);
}

/* Makes the call; runs on the filled stack. */
static void make(void)
{
    const size_t book_len = now.book_len, pool_len = now.pool_len;
    const uint32_t *given = now.given;
    if (now.which == OPEN)
        now.ran.stop = __real_chase_open(now.book, book_len, now.pool, pool_len, given[0], given[1]);
    else if (now.which == STEP)
        now.ran.stop = __real_chase_step(now.book, book_len, now.pool, pool_len, given[0], given[1]);
    else if (now.which == RUN)
        now.ran = __real_chase_run(now.book, book_len, now.pool, pool_len, given[0], given[1], given[2]);
    else
        now.ran.stop = __real_chase_take(now.book, book_len, now.pool, pool_len, given[0], now.out, now.out_len);
}

/* Makes the call on the filled stack, notes how far down it went, and fills the stack again. */
static struct chase_ran measure(void)
{
    uint64_t untouched;
    size_t word = 0, depth;
    if (!stack)
        begin();
    getcontext(&inside);
    inside.uc_stack.ss_sp = stack;
    inside.uc_stack.ss_size = STACK;
    inside.uc_link = &outside;
    makecontext(&inside, make, 0);
    swapcontext(&outside, &inside);
    memset(&untouched, FILL, sizeof untouched);
    while (word < WORDS && stack[word] == untouched)
        word++;
    depth = (WORDS - word) * sizeof *stack;
    memset(stack + word, FILL, depth);
    if (depth > most[now.which])
        most[now.which] = depth;
    return now.ran;
}

/* What the four calls share. */
static void lend(int which, const uint8_t *book, size_t book_len, uint8_t *pool, size_t pool_len)
{
    memset(&now, 0, sizeof now);
    now.which = which;
    now.book = book;
    now.book_len = book_len;
    now.pool = pool;
    now.pool_len = pool_len;
}

uint32_t __wrap_chase_open(const uint8_t *book, size_t book_len, uint8_t *pool, size_t pool_len, uint32_t scheduler,
                           uint32_t strategy)
{
    lend(OPEN, book, book_len, pool, pool_len);
    now.given[0] = scheduler;
    now.given[1] = strategy;
    return measure().stop;
}

uint32_t __wrap_chase_step(const uint8_t *book, size_t book_len, uint8_t *pool, size_t pool_len, uint32_t bound,
                           uint32_t number)
{
    lend(STEP, book, book_len, pool, pool_len);
    now.given[0] = bound;
    now.given[1] = number;
    return measure().stop;
}

struct chase_ran __wrap_chase_run(const uint8_t *book, size_t book_len, uint8_t *pool, size_t pool_len, uint32_t bound,
                                  uint32_t number, uint32_t budget)
{
    lend(RUN, book, book_len, pool, pool_len);
    now.given[0] = bound;
    now.given[1] = number;
    now.given[2] = budget;
    return measure();
}

uint32_t __wrap_chase_take(const uint8_t *book, size_t book_len, uint8_t *pool, size_t pool_len, uint32_t list,
                           uint8_t *out, size_t out_len)
{
    lend(TAKE, book, book_len, pool, pool_len);
    now.given[0] = list;
    now.out = out;
    now.out_len = out_len;
    return measure().stop;
}
