/* recorded.c: reads books and pools out of the recorded answers. */
#define _GNU_SOURCE
#include "recorded.h"

#include <stdio.h>
#include <stdlib.h>
#include <string.h>

struct bytes recorded_books[RECORDED_MOST], recorded_pools[RECORDED_MOST];
size_t recorded_book_of[RECORDED_MOST];
size_t recorded_book_count, recorded_pool_count;

static int digit(char c)
{
    if (c >= '0' && c <= '9')
        return c - '0';
    return c >= 'a' && c <= 'f' ? c - 'a' + 10 : -1;
}

struct bytes recorded_bytes(const char *text)
{
    struct bytes bytes = {malloc(strlen(text) / 2 + 1), 0};
    while (bytes.at && digit(text[0]) >= 0 && digit(text[1]) >= 0) {
        bytes.at[bytes.len++] = (uint8_t)(16 * digit(text[0]) + digit(text[1]));
        text += 2;
    }
    return bytes;
}

static int add_book(struct bytes book)
{
    if (!book.at || recorded_book_count == RECORDED_MOST)
        return 0;
    recorded_books[recorded_book_count++] = book;
    return 1;
}

/* A pool of zeros for the last book. */
static int add_pool(size_t len)
{
    struct bytes pool = {calloc(1, len), len};
    if (!pool.at || recorded_pool_count == RECORDED_MOST || recorded_book_count == 0)
        return 0;
    recorded_book_of[recorded_pool_count] = recorded_book_count - 1;
    recorded_pools[recorded_pool_count++] = pool;
    return 1;
}

/* Some bytes of the last pool. */
static int fill_pool(size_t offset, const char *text)
{
    const struct bytes some = recorded_bytes(text);
    const struct bytes last = recorded_pool_count ? recorded_pools[recorded_pool_count - 1] : (struct bytes){NULL, 0};
    const int fits = some.at && offset <= last.len && some.len <= last.len - offset;
    if (fits)
        memcpy(last.at + offset, some.at, some.len);
    free(some.at);
    return fits;
}

/* One byte of what makes the last pool sound; the first one begins a pool of its own. */
static int change_pool(size_t offset, unsigned byte)
{
    static size_t changed; /* how many pools there were when the last change began one */
    struct bytes last;
    if (recorded_pool_count == 0)
        return 0;
    last = recorded_pools[recorded_pool_count - 1];
    if (offset >= last.len)
        return 0;
    if (changed != recorded_pool_count) {
        if (!add_pool(last.len))
            return 0;
        memcpy(recorded_pools[recorded_pool_count - 1].at, last.at, last.len);
        changed = recorded_pool_count;
    }
    recorded_pools[recorded_pool_count - 1].at[offset] = (uint8_t)byte;
    return 1;
}

/* What one line adds; a line of another kind adds nothing. */
static int read_line(const char *line)
{
    size_t number = 0;
    unsigned byte = 0;
    int used = 0;
    if (sscanf(line, "input %n", &used) == 0 && used > 0) {
        struct bytes input = recorded_bytes(line + used);
        if (input.len < 8)
            return 1;
        return add_book((struct bytes){input.at + 8, input.len - 8});
    }
    if (sscanf(line, "book %n", &used) == 0 && used > 0)
        return add_book(recorded_bytes(line + used));
    if (sscanf(line, "refusal %*u %*u %n", &used) == 0 && used > 0)
        return add_book(recorded_bytes(line + used));
    if (sscanf(line, "length %zu", &number) == 1)
        return add_pool(number);
    if (sscanf(line, "at %zu %n", &number, &used) == 1 && used > 0)
        return fill_pool(number, line + used);
    if (sscanf(line, "change %zu %u", &number, &byte) == 2)
        return change_pool(number, byte);
    return 1;
}

int recorded_read(const char *name)
{
    FILE *file = fopen(name, "r");
    char *line = NULL;
    size_t room = 0;
    int fine = file != NULL;
    while (fine && getline(&line, &room, file) >= 0)
        fine = read_line(line);
    free(line);
    if (file)
        fclose(file);
    return fine;
}
