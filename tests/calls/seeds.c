/* seeds.c: inputs for libFuzzer to begin with: the recorded books and pools, each with some calls, and for each kind of
 * call a book that is a byte too long, as no recorded one is.
 *
 *   seeds FOLDER FILE..
 *
 * Writes one file for each into FOLDER; FILE.. are the recorded answers. */
#include <stdio.h>
#include <string.h>

#include "chase.h"
#include "input.h"
#include "recorded.h"

static struct input input;

/* An input of zeros without calls. */
static void begin(size_t book_len, size_t slots)
{
    memset(&input, 0, sizeof input);
    input.book.len = book_len;
    input.pool.len = CHASE_POOL_SIZE(slots);
}

static void add_call(uint32_t which, uint32_t first, uint32_t second, uint32_t third)
{
    struct scripted *one = input.script + input.count++;
    *one = (struct scripted){.call = {which, {first, second, third}}, .seed = (unsigned)input.count};
    one->out_len = which == CALL_TAKE ? CHASE_SHEET_SIZE + 1 : 0;
}

static int same(const struct buffer *first, const struct buffer *second)
{
    return first->len == second->len && memcmp(first->at, second->at, first->len) == 0;
}

/* Writes the input, which has to be the same when it is read again. */
static void write_input(const char *folder, const char *kind, size_t number)
{
    static uint8_t bytes[2 * BUFFER_MOST];
    static struct input again;
    const size_t len = input_write(&input, bytes, sizeof bytes);
    char name[4096];
    FILE *file;
    snprintf(name, sizeof name, "%s/%s-%zu", folder, kind, number);
    input_read(&again, bytes, len);
    if (!same(&again.book, &input.book) || !same(&again.pool, &input.pool) || again.count != input.count)
        lent_fail("%s is another input when read again", name);
    file = fopen(name, "wb");
    if (!file || fwrite(bytes, 1, len, file) != len || fclose(file) != 0)
        lent_fail("%s cannot be written", name);
}

/* Steps, and a take from each list. */
static void add_rest(size_t number)
{
    const uint32_t bound = number % 4, most = bound ? (uint32_t)(number / 4 % 4) : 0;
    add_call(CALL_STEP, bound, most, 0);
    add_call(CALL_RUN, bound, most, 13);
    add_call(CALL_TAKE, CHASE_COMPLETE, 0, 0);
    add_call(CALL_TAKE, CHASE_BOUNDED, 0, 0);
    add_call(CALL_RUN, CHASE_UNBOUNDED, 0, 3);
}

int main(int count, char **words)
{
    lent_begin("seeds", 1);
    if (count < 3)
        lent_fail("usage: seeds FOLDER FILE..");
    for (int i = 2; i < count; i++)
        if (!recorded_read(words[i]))
            lent_fail("%s cannot be read", words[i]);
    for (uint32_t which = 0; which < CALLS; which++) {
        begin(CHASE_BOOK_MOST + 1, 1);
        add_call(which, 0, 0, 0);
        write_input(words[1], "long", which);
    }
    for (size_t i = 0; i < recorded_book_count; i++) {
        begin(0, 1 + i % 12);
        set(&input.book, recorded_books[i].at, recorded_books[i].len);
        add_call(CALL_OPEN, i % 2, i / 2 % 2, 0);
        add_rest(i);
        write_input(words[1], "book", i);
    }
    for (size_t i = 0; i < recorded_pool_count; i++) {
        const struct bytes *book = recorded_books + recorded_book_of[i];
        begin(0, 0);
        set(&input.book, book->at, book->len);
        set(&input.pool, recorded_pools[i].at, recorded_pools[i].len);
        add_rest(i);
        write_input(words[1], "pool", i);
    }
    printf("seeds: %zu books and %zu pools\n", recorded_book_count, recorded_pool_count);
    return 0;
}
