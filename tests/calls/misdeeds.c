/* misdeeds.c: the exported calls with a misdeed added, to see that the driver or the judge finds it (tests/calls/run).
 * Stands around the archive's own calls by the linker's --wrap; the variable MISDEED says which one is done. */
#include <stdlib.h>
#include <string.h>

#include "chase.h"

uint32_t __real_chase_open(const uint8_t *, size_t, uint8_t *, size_t, uint32_t, uint32_t);
uint32_t __real_chase_step(const uint8_t *, size_t, uint8_t *, size_t, uint32_t, uint32_t);
struct chase_ran __real_chase_run(const uint8_t *, size_t, uint8_t *, size_t, uint32_t, uint32_t, uint32_t);
uint32_t __real_chase_take(const uint8_t *, size_t, uint8_t *, size_t, uint32_t, uint8_t *, size_t);

uint32_t __wrap_chase_open(const uint8_t *, size_t, uint8_t *, size_t, uint32_t, uint32_t);
uint32_t __wrap_chase_step(const uint8_t *, size_t, uint8_t *, size_t, uint32_t, uint32_t);
struct chase_ran __wrap_chase_run(const uint8_t *, size_t, uint8_t *, size_t, uint32_t, uint32_t, uint32_t);
uint32_t __wrap_chase_take(const uint8_t *, size_t, uint8_t *, size_t, uint32_t, uint8_t *, size_t);

static int does(const char *misdeed)
{
    const char *chosen = getenv("MISDEED");
    return chosen && strcmp(chosen, misdeed) == 0;
}

/* Touches the bytes around a buffer, or writes what is there already. */
static void around(const char *name, const uint8_t *at, size_t len)
{
    volatile uint8_t *bytes = (volatile uint8_t *)(uintptr_t)at;
    char misdeed[64] = "reads-before-";
    if (len == 0)
        return;
    if (does(strcat(misdeed, name)))
        (void)bytes[-1];
    if (does(strcat(strcpy(misdeed, "reads-behind-"), name)))
        (void)bytes[len];
    if (does(strcat(strcpy(misdeed, "writes-before-"), name)))
        bytes[-1] = 1;
    if (does(strcat(strcpy(misdeed, "writes-behind-"), name)))
        bytes[len] = 1;
}

uint32_t __wrap_chase_open(const uint8_t *book, size_t book_len, uint8_t *pool, size_t pool_len, uint32_t scheduler,
                           uint32_t strategy)
{
    uint32_t answer = __real_chase_open(book, book_len, pool, pool_len, scheduler, strategy);
    around("book", book, book_len);
    if (does("writes-book") && book_len > 0)
        *(volatile uint8_t *)(uintptr_t)book = book[0];
    if (does("opens-half") && answer == 0)
        pool[8] = 0;
    return answer;
}

uint32_t __wrap_chase_step(const uint8_t *book, size_t book_len, uint8_t *pool, size_t pool_len, uint32_t bound,
                           uint32_t number)
{
    uint32_t answer = __real_chase_step(book, book_len, pool, pool_len, bound, number);
    around("pool", pool, pool_len);
    if (does("writes-when-refused") && answer == 16)
        pool[pool_len - 1] ^= 1;
    return answer;
}

struct chase_ran __wrap_chase_run(const uint8_t *book, size_t book_len, uint8_t *pool, size_t pool_len, uint32_t bound,
                                  uint32_t number, uint32_t budget)
{
    struct chase_ran ran = __real_chase_run(book, book_len, pool, pool_len, bound, number, budget);
    if (does("invents-steps") && ran.stop == 14)
        ran.steps = budget;
    return ran;
}

uint32_t __wrap_chase_take(const uint8_t *book, size_t book_len, uint8_t *pool, size_t pool_len, uint32_t list,
                           uint8_t *out, size_t out_len)
{
    uint32_t answer = __real_chase_take(book, book_len, pool, pool_len, list, out, out_len);
    around("out", out, out_len);
    if (does("writes-later-bytes") && answer == 0 && out_len > CHASE_SHEET_SIZE)
        out[CHASE_SHEET_SIZE] ^= 1;
    if (does("keeps-the-slot") && answer == 0)
        pool[CHASE_HEADER_SIZE] ^= 1;
    return answer;
}
