/* fuzz.c: the exported calls on bytes changed at random.
 *
 *   fuzz SECONDS SEED FILE..
 *
 * Begins with the books and pools of the recorded answers (FILE..), changes them, opens, steps, runs and takes, and
 * keeps what the calls made to go on from. asked.h says what is asked of every call.
 * The same SEED makes the same calls, whatever the compiler and the machine, up to one that is broken off; SECONDS only
 * says when to end. At the end it prints how often each answer came, and after 300,000 calls or more fails if one never
 * came. */
#include <stdio.h>
#include <stdlib.h>
#include <time.h>

#include "asked.h"
#include "chase.h"
#include "recorded.h"

enum { SECONDS_MOST = 30, KEPT = 64 };

static struct state kept[KEPT];

/* A book and a pool to begin with: recorded ones, or what was kept. */
static void begin(void)
{
    const size_t chosen = below(8);
    struct answer answer;
    if (chosen < 3 && kept[0].pool.len > 0) {
        const struct state *from = kept + below(KEPT);
        from = from->pool.len ? from : kept;
        copy(&now.book, &from->book);
        copy(&now.pool, &from->pool);
    } else if (chosen < 4) {
        const size_t pool_number = below(recorded_pool_count);
        set(&now.pool, recorded_pools[pool_number].at, recorded_pools[pool_number].len);
        set(&now.book, recorded_books[recorded_book_of[pool_number]].at,
            recorded_books[recorded_book_of[pool_number]].len);
    } else {
        const size_t number = below(recorded_book_count);
        struct call open = {CALL_OPEN, {0, 0, 0}};
        set(&now.book, recorded_books[number].at, recorded_books[number].len);
        fill(&now.pool, CHASE_POOL_SIZE(below(20) ? 1 + below(8) : 1 + below(64)));
        fill(&now.out, 0);
        open.given[0] = (uint32_t)below(2);
        open.given[1] = (uint32_t)below(2);
        asked_call(&open, &answer);
    }
}

/* Changes what the next call is given, now and then. */
static void change(void)
{
    if (below(5) == 0)
        change_pool(&now.pool);
    if (below(12) == 0)
        change_book(&now.book);
}

/* Some calls, with changes between them; a change that made a call answer 1 to 13 is mostly taken back. */
static void round_of_calls(void)
{
    static struct state before;
    begin();
    for (size_t count = 1 + below(16); count > 0; count--) {
        struct call call;
        struct answer answer;
        size_t out_len;
        copy(&before.book, &now.book);
        copy(&before.pool, &now.pool);
        change();
        call = asked_any(&out_len);
        fill(&now.out, out_len);
        if (!asked_call(&call, &answer))
            return;
        if (answer.stop >= 1 && answer.stop <= 13 && below(4)) {
            copy(&now.book, &before.book);
            copy(&now.pool, &before.pool);
        } else if (answer.stop == 0 && below(16) == 0) {
            struct state *to = kept + (kept[0].pool.len ? below(KEPT) : 0);
            copy(&to->book, &now.book);
            copy(&to->pool, &now.pool);
        }
    }
}

int main(int count, char **words)
{
    time_t end;
    lent_begin("fuzz", SECONDS_MOST);
    if (count < 4)
        lent_fail("usage: fuzz SECONDS SEED FILE..");
    for (int i = 3; i < count; i++)
        if (!recorded_read(words[i]))
            lent_fail("%s cannot be read", words[i]);
    if (recorded_book_count == 0 || recorded_pool_count == 0)
        lent_fail("no recorded books or pools");
    change_begin(strtoull(words[2], NULL, 10));
    end = time(NULL) + strtol(words[1], NULL, 10);
    while (time(NULL) < end)
        for (int i = 0; i < 16; i++)
            round_of_calls();
    printf("fuzz: seed %s, %zu books and %zu pools to begin with, %ju calls, %ju broken off\n", words[2],
           recorded_book_count, recorded_pool_count, (uintmax_t)lent_calls, (uintmax_t)asked_late);
    asked_print();
    return 0;
}
