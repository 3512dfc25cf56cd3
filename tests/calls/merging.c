/* merging.c: makes one of the steps that the program merging of tests/compare writes down, and holds the pool afterwards to
 * the one that the reference left. tests/calls/merging counts what is executed meanwhile.
 *
 *   merging FILE NUMBER */
#include <stdio.h>
#include <stdlib.h>
#include <string.h>

#include "chase.h"
#include "recorded.h"

int main(int argc, char **argv)
{
    const size_t number = argc == 3 ? strtoul(argv[2], NULL, 10) : 0;
    struct bytes book, pool, after;
    uint32_t answer;
    if (argc != 3 || !recorded_read(argv[1])) {
        fputs("usage: merging FILE NUMBER\n", stderr);
        return 2;
    }
    if (2 * number + 1 >= recorded_pool_count || number >= recorded_book_count) {
        fprintf(stderr, "merging: there is no step %zu\n", number);
        return 2;
    }
    book = recorded_books[number];
    pool = recorded_pools[2 * number];
    after = recorded_pools[2 * number + 1];
    answer = chase_step(book.at, book.len, pool.at, pool.len, CHASE_UNBOUNDED, 0);
    if (answer != 0 || pool.len != after.len || memcmp(pool.at, after.at, pool.len) != 0) {
        fprintf(stderr, "merging: step %zu answers %u, or leaves another pool than the reference\n", number, answer);
        return 1;
    }
    return 0;
}
