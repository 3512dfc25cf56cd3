/* input.h: what the bytes that libFuzzer makes mean: a book, a pool, and some calls on them. Every byte string means
 * something: numbers are taken down to their range, and what is missing at the end is zero.
 *
 *   1 byte     how many calls, modulo SCRIPT_MOST + 1
 *   20 bytes   for each call: its kind, what is changed before it, a 16-bit seed, four 32-bit numbers: the three that
 *              it is given, and the length of its output
 *   4 bytes    the length of the pool
 *   2 bytes    how many bytes of packed pool follow
 *   ..         the pool, packed: 0 and n stand for n + 1 zeros, any other byte for itself; then zeros
 *   ..         the book, to the end
 * Numbers stand low byte first. */
#ifndef INPUT_H
#define INPUT_H

#include "change.h"
#include "lent.h"

enum { SCRIPT_MOST = 8, BUDGET_MOST = 15, OUT_MOST = 4096 };
enum { CHANGES_POOL = 1, CHANGES_BOOK = 2 };

/* A call of the script; the seed decides the changes before it, and the places of the buffers. */
struct scripted {
    struct call call;
    unsigned changes, seed;
    size_t out_len;
};

struct input {
    struct buffer book, pool;
    size_t count;
    struct scripted script[SCRIPT_MOST];
};

void input_read(struct input *input, const uint8_t *from, size_t len);
/* Answers the length, at most `most`; what does not fit is left out. */
size_t input_write(const struct input *input, uint8_t *to, size_t most);

#endif
