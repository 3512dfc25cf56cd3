/* input.c: reads and writes the inputs of libFuzzer. */
#include "input.h"

#include <string.h>

#include "chase.h"

enum { PACKED_MOST = 65535, POOL_MOST = CHASE_POOL_SIZE(CHASE_SLOTS_MOST + 1) + 1 };

/* Bytes that are read or written one after the other. */
struct bytes_at {
    uint8_t *at;
    size_t done, len;
};

static uint32_t get(struct bytes_at *from, unsigned bytes)
{
    uint32_t number = 0;
    for (unsigned i = 0; i < bytes; i++)
        if (from->done < from->len)
            number |= (uint32_t)from->at[from->done++] << 8 * i;
    return number;
}

static void put(struct bytes_at *to, unsigned bytes, uint32_t number)
{
    for (unsigned i = 0; i < bytes; i++)
        if (to->done < to->len)
            to->at[to->done++] = (uint8_t)(number >> 8 * i);
}

static void get_call(struct bytes_at *from, struct scripted *to)
{
    to->call.which = get(from, 1) % CALLS;
    to->changes = get(from, 1) % (CHANGES_POOL + CHANGES_BOOK + 1);
    to->seed = get(from, 2);
    for (int i = 0; i < 3; i++)
        to->call.given[i] = get(from, 4);
    to->call.given[2] %= BUDGET_MOST + 1;
    to->out_len = get(from, 4) % OUT_MOST;
}

static void put_call(struct bytes_at *to, const struct scripted *from)
{
    put(to, 1, from->call.which);
    put(to, 1, from->changes);
    put(to, 2, from->seed);
    for (int i = 0; i < 3; i++)
        put(to, 4, from->call.given[i]);
    put(to, 4, (uint32_t)from->out_len);
}

static void get_pool(struct bytes_at *from, struct buffer *pool)
{
    struct bytes_at packed = *from;
    size_t len, at = 0;
    pool->len = get(from, 4) % (POOL_MOST + 1);
    len = get(from, 2);
    packed.done = from->done;
    packed.len = len < from->len - from->done ? from->done + len : from->len;
    memset(pool->at, 0, pool->len);
    while (packed.done < packed.len && at < pool->len) {
        const uint8_t byte = (uint8_t)get(&packed, 1);
        if (byte == 0)
            at += get(&packed, 1) + 1;
        else
            pool->at[at++] = byte;
    }
    from->done = packed.len;
}

static void put_pool(struct bytes_at *to, const struct buffer *pool)
{
    static uint8_t room[PACKED_MOST];
    struct bytes_at packed = {room, 0, sizeof room};
    size_t used = pool->len;
    while (used > 0 && pool->at[used - 1] == 0)
        used--;
    for (size_t at = 0; at < used;) {
        size_t zeros = 0;
        while (zeros < 256 && at + zeros < used && pool->at[at + zeros] == 0)
            zeros++;
        put(&packed, zeros ? 2 : 1, zeros ? (uint32_t)(zeros - 1) << 8 : pool->at[at]);
        at += zeros ? zeros : 1;
    }
    put(to, 4, (uint32_t)pool->len);
    put(to, 2, (uint32_t)packed.done);
    for (size_t i = 0; i < packed.done; i++)
        put(to, 1, room[i]);
}

void input_read(struct input *input, const uint8_t *from, size_t len)
{
    struct bytes_at bytes = {(uint8_t *)(uintptr_t)from, 0, len};
    input->count = get(&bytes, 1) % (SCRIPT_MOST + 1);
    for (size_t i = 0; i < input->count; i++)
        get_call(&bytes, input->script + i);
    get_pool(&bytes, &input->pool);
    set(&input->book, from + bytes.done, len - bytes.done);
}

size_t input_write(const struct input *input, uint8_t *to, size_t most)
{
    struct bytes_at bytes = {to, 0, most};
    put(&bytes, 1, (uint32_t)input->count);
    for (size_t i = 0; i < input->count; i++)
        put_call(&bytes, input->script + i);
    put_pool(&bytes, &input->pool);
    for (size_t i = 0; i < input->book.len; i++)
        put(&bytes, 1, input->book.at[i]);
    return bytes.done;
}
