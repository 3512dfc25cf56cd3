/* change.h: random numbers, and random changes of books and pools. */
#ifndef CHANGE_H
#define CHANGE_H

#include <stddef.h>
#include <stdint.h>

enum { BUFFER_MOST = 1 << 18 };

struct buffer {
    size_t len;
    uint8_t at[BUFFER_MOST];
};

/* Begins the random numbers again from a seed. */
void change_begin(uint64_t seed);
/* A number below `most`, which is not 0. */
size_t below(size_t most);
/* A number that no setting has, or seldom. */
uint32_t odd_number(void);

void set(struct buffer *to, const uint8_t *from, size_t len);
void copy(struct buffer *to, const struct buffer *from);
/* A buffer of one byte, repeated. */
void fill(struct buffer *to, size_t len);

/* One to three changes: numbers, bits, parts left out, repeated or put elsewhere. */
void change_book(struct buffer *book);
/* A part of another book is put in. */
void change_book_by(struct buffer *book, const struct buffer *other);
/* One to three changes: of the header, of a sheet, of table entries, of whole slots, of the length. */
void change_pool(struct buffer *pool);

#endif
