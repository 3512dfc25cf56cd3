/* driver.c: makes the exported calls for a program on the other end of two pipes, which holds them against the
 * reference (tests/compare/src/pipes.rs).
 *
 * A request is nine 32-bit numbers, low byte first: the call (0 open, 1 step, 2 run, 3 take), its three numbers, the
 * place of the book (0 keep the last one, 1 at the front of its pages, 2 at the back) and its length, the place of the
 * pool and its length, the length of the output; then the bytes of the book and of the pool unless kept, then those of
 * the output. The output stands where the pool was last put. The answer is two 32-bit numbers, stop and steps, then
 * the bytes of the pool and of the output as the call left them. It ends when there is no further request. */
#define _GNU_SOURCE
#include <errno.h>
#include <fcntl.h>
#include <unistd.h>

#include "lent.h"

enum { SECONDS = 300, PIPE = 1 << 20 };

struct request {
    struct call call;
    uint32_t book_place, book_len, pool_place, pool_len, out_len;
};

/* Reads `len` bytes; 0 when the input ended before the first. */
static int read_all(void *to, size_t len)
{
    size_t done = 0;
    while (done < len) {
        ssize_t got = read(0, (char *)to + done, len - done);
        if (got < 0 && errno == EINTR)
            continue;
        if (got <= 0 && done == 0)
            return 0;
        if (got <= 0)
            lent_fail("a request ends early");
        done += (size_t)got;
    }
    return 1;
}

static void write_all(const void *from, size_t len)
{
    size_t done = 0;
    while (done < len) {
        ssize_t got = write(1, (const char *)from + done, len - done);
        if (got < 0 && errno == EINTR)
            continue;
        if (got <= 0)
            lent_fail("an answer cannot be written");
        done += (size_t)got;
    }
}

/* Puts a buffer and reads its bytes, unless it is kept. */
static void receive(struct lent *lent, uint32_t place, uint32_t len)
{
    if (place == KEEP && lent->len == len)
        return;
    if (place != FRONT && place != BACK)
        lent_fail("there is no place %u for a %s of %u bytes", place, lent->name, len);
    lent_put(lent, len, place);
    if (len > 0 && !read_all(lent->at, len))
        lent_fail("a request ends early");
}

int main(void)
{
    struct request request;
    uint32_t place = BACK;
    lent_begin("driver", SECONDS);
    fcntl(0, F_SETPIPE_SZ, PIPE); /* larger pipes only save time */
    fcntl(1, F_SETPIPE_SZ, PIPE);
    while (read_all(&request, sizeof request)) {
        struct answer answer;
        receive(&book, request.book_place, request.book_len);
        receive(&pool, request.pool_place, request.pool_len);
        if (request.pool_place != KEEP)
            place = request.pool_place;
        receive(&out, place, request.out_len);
        answer = lent_call(&request.call);
        write_all(&answer, sizeof answer);
        write_all(pool.at, pool.len);
        write_all(out.at, out.len);
    }
    return 0;
}
