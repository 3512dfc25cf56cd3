/* deep.c: calls that go as deep as calls can, for stack.c to measure: pools of 64 slots and of one, books as long as a
 * book can be, heads of eight disjuncts of sixteen literals, terms of eight levels. Such a term has known arguments and
 * the next level as the last one, so that an argument list has been walked to its end where the next level begins. */
#include <stdio.h>
#include <string.h>

#include "chase.h"
#include "lent.h"

enum { SECONDS = 60, ARITY = 4, LEVELS = 8, LITERALS = 16, DISJUNCTS = 8, SEQUENTS = 128, BUDGET = 1000 };
enum { WIDE, BARE }; /* functions, of four arguments and of none */

static uint8_t bytes[CHASE_BOOK_MOST];
static size_t len;

static void put(unsigned number)
{
    if (len + 2 > sizeof bytes)
        lent_fail("the book is too long");
    bytes[len++] = (uint8_t)number;
    bytes[len++] = (uint8_t)(number >> 8);
}

/* The one constant, so many times. */
static void put_known(size_t count)
{
    while (count-- > 0) {
        put(1);
        put(0);
    }
}

static void put_deep(void)
{
    for (int level = 1; level < LEVELS; level++) {
        put(2);
        put(WIDE);
        put_known(ARITY - 1);
    }
    put(2);
    put(BARE);
}

/* Literals over a deep term: facts that have it as the last argument, or identities of it with itself. */
static void put_literals(unsigned identity)
{
    put(LITERALS);
    for (int i = 0; i < LITERALS; i++) {
        put(identity);
        if (identity) {
            put_deep();
        } else {
            put(0);
            put_known(ARITY - 1);
        }
        put_deep();
    }
}

/* No variables and no body, and a head of eight disjuncts. */
static void put_head(unsigned identity)
{
    put(0);
    put(0);
    put(DISJUNCTS);
    for (int i = 0; i < DISJUNCTS; i++) {
        put(0);
        put_literals(identity);
    }
}

/* No variables, a body of literals or none, and a disjunct that always holds. */
static void put_body(int deep, unsigned identity)
{
    put(0);
    if (deep)
        put_literals(identity);
    else
        put(0);
    put(1);
    put(0);
    put(0);
}

/* A book: the constant is made known, then the deep head; the rest is deep bodies while there is room for one, then
 * empty ones. */
static void make_book(unsigned identity)
{
    static const unsigned declared[] = {1, 1, 2, 1, 0, 0, ARITY, 0, ARITY}; /* version, counts, arities */
    const size_t term = 4 * (LEVELS + (LEVELS - 1) * (ARITY - 1)), empty = 10;
    const size_t deep = empty + LITERALS * (identity ? 2 + 2 * term : 4 + 4 * (ARITY - 1) + term);
    size_t count_at, count = 2;
    memcpy(bytes, "RUL", len = 3);
    for (size_t i = 0; i < sizeof declared / sizeof *declared; i++)
        put(declared[i]);
    count_at = len;
    put(0);
    put(0), put(0), put(1), put(0), put(1), put(1), put_known(2);
    put_head(identity);
    for (; count < SEQUENTS && len + empty < CHASE_BOOK_MOST; count++)
        put_body(len + deep < CHASE_BOOK_MOST, identity);
    bytes[count_at] = (uint8_t)count;
}

/* A call that has to answer this. */
static void call(uint32_t which, uint32_t first, uint32_t second, uint32_t third, uint32_t wanted)
{
    const struct answer answer = lent_call(&(struct call){which, {first, second, third}});
    if (answer.stop != wanted)
        lent_fail("%s answers %u, not %u", call_names[which], answer.stop, wanted);
}

/* All four calls on a pool of so many slots; one slot has no room for eight children. */
static void run_book(size_t slots, uint32_t bound, uint32_t number)
{
    const uint32_t list = bound == CHASE_DEPTH_PURE ? CHASE_BOUNDED : CHASE_COMPLETE, most = slots > 1 ? DISJUNCTS : 0;
    lent_put(&pool, CHASE_POOL_SIZE(slots), BACK);
    lent_put(&out, CHASE_SHEET_SIZE, BACK);
    memset(pool.at, 255, pool.len);
    call(CALL_OPEN, CHASE_LIFO, CHASE_FAIR, 0, 0);
    call(CALL_STEP, CHASE_UNBOUNDED, 0, 0, 0);
    call(CALL_RUN, bound, number, 1, most ? 0 : 16);
    call(CALL_OPEN, CHASE_FIFO, CHASE_LINEAR, 0, 0);
    call(CALL_STEP, CHASE_UNBOUNDED, 0, 0, 0);
    call(CALL_STEP, bound, number, 0, most ? 0 : 16);
    call(CALL_RUN, bound, number, BUDGET, most ? 14 : 16);
    for (uint32_t taken = 0; taken <= most; taken++)
        call(CALL_TAKE, list, 0, 0, taken < most ? 0 : 18);
}

int main(void)
{
    lent_begin("deep", SECONDS);
    for (unsigned identity = 0; identity < 2; identity++) {
        make_book(identity);
        lent_put(&book, len, BACK);
        memcpy(book.at, bytes, len);
        for (size_t slots = 1; slots <= CHASE_SLOTS_MOST; slots += CHASE_SLOTS_MOST - 1) {
            run_book(slots, CHASE_UNBOUNDED, 0);
            run_book(slots, CHASE_DOMAIN_SIZE, 1000);
            run_book(slots, CHASE_DEPTH_PURE, LEVELS - 2);
            run_book(slots, CHASE_DEPTH_REUSE, LEVELS - 1);
        }
        printf("deep: a book of %zu bytes, %ju calls so far\n", len, (uintmax_t)lent_calls);
    }
    return 0;
}
