/* recorded.h: the books and pools of tests/recorded (its README says how they are written), for programs in C. */
#ifndef RECORDED_H
#define RECORDED_H

#include <stddef.h>
#include <stdint.h>

enum { RECORDED_MOST = 4096 }; /* the most books, and the most pools */

struct bytes {
    uint8_t *at;
    size_t len;
};

/* The books of all records. A pool stands with the number of its book. */
extern struct bytes recorded_books[RECORDED_MOST], recorded_pools[RECORDED_MOST];
extern size_t recorded_book_of[RECORDED_MOST];
extern size_t recorded_book_count, recorded_pool_count;

/* The bytes of hex digits, up to the first character that is none; at is NULL when there is no memory. */
struct bytes recorded_bytes(const char *text);

/* Reads one more file; answers 0 when that cannot be done. */
int recorded_read(const char *name);

#endif
