/* change.c: random changes of books and pools, aimed at what their bytes mean. */
#include "change.h"

#include <string.h>

#include "chase.h"
#include "recorded.h"

static uint64_t state;

void change_begin(uint64_t seed)
{
    state = seed * 0x9e3779b97f4a7c15u + 1;
}

/* splitmix64 */
static uint64_t next(void)
{
    uint64_t z = state += 0x9e3779b97f4a7c15u;
    z = (z ^ (z >> 30)) * 0xbf58476d1ce4e5b9u;
    z = (z ^ (z >> 27)) * 0x94d049bb133111ebu;
    return z ^ (z >> 31);
}

size_t below(size_t most)
{
    return (size_t)(next() % most);
}

uint32_t odd_number(void)
{
    static const uint32_t odd[] = {2, 3, 4, 5, 255, 256, 257, 65535, 65536, 0x7fffffff, 0x80000000, 0xffffffff};
    return odd[below(sizeof odd / sizeof *odd)];
}

void set(struct buffer *to, const uint8_t *from, size_t len)
{
    to->len = len < BUFFER_MOST ? len : BUFFER_MOST;
    memcpy(to->at, from, to->len);
}

void copy(struct buffer *to, const struct buffer *from)
{
    set(to, from->at, from->len);
}

void fill(struct buffer *to, size_t len)
{
    to->len = len;
    memset(to->at, (int)below(256), len);
}

/* A 16-bit number that is changed: to a small one, by one, or to anything. */
static void change_number(uint8_t *at)
{
    unsigned number = at[0] + 256u * at[1];
    switch (below(6)) {
    case 0:
    case 1:
        number = (unsigned)below(5);
        break;
    case 2:
        number++;
        break;
    case 3:
        number--;
        break;
    case 4:
        number = (unsigned)below(130);
        break;
    default:
        number = (unsigned)next();
    }
    at[0] = (uint8_t)number;
    at[1] = (uint8_t)(number >> 8);
}

/* Leaves out `len` bytes at `at`. */
static void leave_out(struct buffer *buffer, size_t at, size_t len)
{
    memmove(buffer->at + at, buffer->at + at + len, buffer->len - at - len);
    buffer->len -= len;
}

/* Puts `len` bytes in at `at`, which may come from the same buffer. */
static void put_in(struct buffer *buffer, size_t at, const uint8_t *from, size_t len)
{
    static uint8_t part[1024];
    len = len < sizeof part ? len : sizeof part;
    if (buffer->len + len > 2 * CHASE_BOOK_MOST)
        return;
    memcpy(part, from, len);
    memmove(buffer->at + at + len, buffer->at + at, buffer->len - at);
    memcpy(buffer->at + at, part, len);
    buffer->len += len;
}

/* A part of whole numbers: its offset, and its length. */
static size_t part_of(size_t all, size_t *len)
{
    const size_t numbers = (all - 3) / 2, first = below(numbers), most = numbers - first;
    *len = 2 * (1 + below(most < 16 ? most : 16));
    return 3 + 2 * first;
}

/* Puts a part of another book in at `at`. */
static void put_part(struct buffer *book, size_t at, const uint8_t *other, size_t other_len)
{
    size_t len, from;
    if (other_len < 5)
        return;
    from = part_of(other_len, &len);
    put_in(book, at, other + from, len);
}

static void change_book_once(struct buffer *book)
{
    size_t len, at;
    if (book->len < 5) {
        fill(book, below(8));
        return;
    }
    at = part_of(book->len, &len);
    switch (below(12)) {
    case 0:
        leave_out(book, at, len);
        break;
    case 1:
        put_in(book, 3 + 2 * below((book->len - 3) / 2), book->at + at, len);
        break;
    case 2:
        if (recorded_book_count > 0) {
            const struct bytes *other = recorded_books + below(recorded_book_count);
            put_part(book, at, other->at, other->len);
        }
        break;
    case 3:
        book->len = below(book->len + 1);
        break;
    case 4:
        book->at[below(book->len)] ^= (uint8_t)(1u << below(8));
        break;
    case 5:
        if (below(20) == 0) {
            memset(book->at + book->len, 0, CHASE_BOOK_MOST + 2);
            book->len = CHASE_BOOK_MOST - 1 + below(3);
        }
        break;
    default:
        change_number(book->at + at);
    }
}

/* A sheet of the pool, one in use more often than not. */
static uint8_t *any_sheet(struct buffer *pool)
{
    const size_t slots = (pool->len - CHASE_HEADER_SIZE) / CHASE_SHEET_SIZE;
    size_t slot = below(slots);
    if (below(4))
        slot = pool->at[16 + 64 * below(3)] % slots;
    return pool->at + CHASE_HEADER_SIZE + slot * CHASE_SHEET_SIZE;
}

/* A table of a sheet, keys or facts: its first entries, or any. */
static uint8_t *any_entry(uint8_t *sheet)
{
    const size_t table = below(2), entry = below(below(4) ? 6 : 128);
    return sheet + 16 + 1024 * table + 8 * entry;
}

static void change_length(struct buffer *pool)
{
    static const size_t lengths[] = {0, 1, 207, 208, 209, CHASE_HEADER_SIZE + 65 * CHASE_SHEET_SIZE};
    const size_t before = pool->len;
    switch (below(4)) {
    case 0:
        pool->len = lengths[below(6)];
        break;
    case 1:
        pool->len += CHASE_SHEET_SIZE;
        break;
    case 2:
        pool->len -= pool->len > CHASE_SHEET_SIZE ? CHASE_SHEET_SIZE : 0;
        break;
    default:
        pool->len += below(3) - (pool->len > 0);
    }
    if (pool->len > BUFFER_MOST)
        pool->len = BUFFER_MOST;
    if (pool->len > before)
        memset(pool->at + before, 0, pool->len - before);
}

/* A change of a sheet: of its numbers, an entry, a depth, or the whole. */
static void change_sheet(struct buffer *pool)
{
    uint8_t *sheet = any_sheet(pool);
    switch (below(8)) {
    case 0:
        change_number(sheet + 2 * below(8));
        break;
    case 4:
    case 5: /* few or no elements left */
        sheet[4] = (uint8_t)(60 + below(5));
        break;
    case 1: {
        const uint8_t *from = any_entry(any_sheet(pool));
        memmove(any_entry(sheet), from, 8);
        break;
    }
    case 2:
        memmove(sheet, any_sheet(pool), CHASE_SHEET_SIZE);
        break;
    case 3:
        sheet[2064 + below(64)] = (uint8_t)below(4);
        break;
    default:
        any_entry(sheet)[below(8)] = (uint8_t)(below(4) ? below(5) : below(256));
    }
}

static void change_pool_once(struct buffer *pool)
{
    const uint32_t last = 65536 - (uint32_t)below(4);
    if (below(40) == 0 || pool->len < CHASE_POOL_SIZE(1)) {
        change_length(pool);
        return;
    }
    switch (below(8)) {
    case 0:
        pool->at[below(16)] = (uint8_t)below(4);
        break;
    case 1:
        pool->at[16 + below(192)] = (uint8_t)(below(2) ? below(4) : below(256));
        break;
    case 2:
    case 3:
        for (size_t i = 0; i < 4; i++)
            pool->at[8 + i] = (uint8_t)(last >> 8 * i);
        break;
    case 4:
        pool->at[below(pool->len)] ^= (uint8_t)(1u << below(8));
        break;
    default:
        change_sheet(pool);
    }
}

void change_book(struct buffer *book)
{
    for (size_t count = 1 + below(3); count > 0; count--)
        change_book_once(book);
}

void change_book_by(struct buffer *book, const struct buffer *other)
{
    size_t len;
    if (book->len >= 5)
        put_part(book, part_of(book->len, &len), other->at, other->len);
}

void change_pool(struct buffer *pool)
{
    for (size_t count = 1 + below(3); count > 0; count--)
        change_pool_once(pool);
}
