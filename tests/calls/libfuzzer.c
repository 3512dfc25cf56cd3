/* libfuzzer.c: the exported calls on what libFuzzer makes (tests/calls/libfuzzer).
 *
 * input.h says what an input means, asked.h what is asked of every call, and seen.h what libFuzzer is told. A call that
 * answers 1 to 13 takes the changes before it back; a book that is refused as it is ends the input, since all later
 * calls would refuse it. An input with a call that is broken off is not kept. The variable BLOCKS names the file of the
 * archive's blocks. At the end it prints how many blocks were reached and how often each answer came. */
#include <stdio.h>
#include <stdlib.h>
#include <string.h>

#include "asked.h"
#include "input.h"
#include "seen.h"

enum { SECONDS_MOST = 1 };

int LLVMFuzzerInitialize(int *count, char ***words);
int LLVMFuzzerTestOneInput(const uint8_t *data, size_t len);
size_t LLVMFuzzerMutate(uint8_t *data, size_t len, size_t most);
size_t LLVMFuzzerCustomMutator(uint8_t *data, size_t len, size_t most, unsigned seed);
size_t LLVMFuzzerCustomCrossOver(const uint8_t *first, size_t first_len, const uint8_t *second, size_t second_len,
                                 uint8_t *to, size_t most, unsigned seed);

static uint64_t inputs;

static void finish(void)
{
    lent_end = _Exit;
    printf("libfuzzer: %ju inputs, %ju calls, %ju broken off\n", (uintmax_t)inputs, (uintmax_t)lent_calls,
           (uintmax_t)asked_late);
    seen_print();
    asked_print();
}

int LLVMFuzzerInitialize(int *count, char ***words)
{
    const char *blocks = getenv("BLOCKS");
    (void)count;
    (void)words;
    lent_begin("libfuzzer", SECONDS_MOST);
    if (!blocks)
        lent_fail("BLOCKS names no file");
    seen_begin(blocks);
    lent_end = exit; /* so that libFuzzer keeps the input */
    atexit(finish);
    return 0;
}

/* Makes the calls of an input; `now` is then what they left. Answers 0 when one was broken off. */
static int play(const struct input *input)
{
    static struct state unchanged;
    copy(&now.book, &input->book);
    copy(&now.pool, &input->pool);
    seen_run();
    for (size_t i = 0; i < input->count; i++) {
        const struct scripted *one = input->script + i;
        struct answer answer;
        copy(&unchanged.book, &now.book);
        copy(&unchanged.pool, &now.pool);
        change_begin(one->seed);
        if (one->changes & CHANGES_POOL)
            change_pool(&now.pool);
        if (one->changes & CHANGES_BOOK)
            change_book(&now.book);
        fill(&now.out, one->out_len);
        if (!asked_call(&one->call, &answer))
            return 0;
        seen_call(&one->call, answer, &now.pool);
        if (answer.stop >= 1 && answer.stop <= 10 && !one->changes)
            break;
        if (answer.stop >= 1 && answer.stop <= 13) {
            copy(&now.book, &unchanged.book);
            copy(&now.pool, &unchanged.pool);
        }
    }
    return 1;
}

int LLVMFuzzerTestOneInput(const uint8_t *data, size_t len)
{
    static struct input input;
    inputs++;
    input_read(&input, data, len);
    if (!play(&input))
        seen_forget();
    return 0;
}

/* A call for the script, mostly with nothing changed before it. */
static struct scripted any_scripted(void)
{
    struct scripted one;
    one.call = asked_any(&one.out_len);
    one.changes = below(3) ? 0 : (unsigned)below(CHANGES_POOL + CHANGES_BOOK + 1);
    one.seed = (unsigned)below(65536);
    return one;
}

/* A call more, another call, one less, or one with other changes before it. */
static void change_script(struct input *input)
{
    const size_t at = below(SCRIPT_MOST);
    struct scripted *one = input->script + at;
    if (at >= input->count) {
        input->script[input->count++] = any_scripted();
    } else if (below(4) == 0) {
        memmove(one, one + 1, (input->count - at - 1) * sizeof *one);
        input->count--;
    } else if (below(3) == 0) {
        one->seed = (unsigned)below(65536);
        one->changes = (unsigned)below(CHANGES_POOL + CHANGES_BOOK + 1);
    } else {
        *one = any_scripted();
    }
}

/* Goes on from what the calls of an input left, with calls of its own. */
static void go_on(struct input *input, unsigned seed)
{
    const int played = play(input);
    change_begin(seed + 1); /* play begins the random numbers from the seeds of the input */
    if (!played)
        return;
    copy(&input->book, &now.book);
    copy(&input->pool, &now.pool);
    for (size_t i = 0; i < input->count; i++)
        input->script[i] = any_scripted();
}

size_t LLVMFuzzerCustomMutator(uint8_t *data, size_t len, size_t most, unsigned seed)
{
    static struct input input;
    const size_t book_most = most < 2048 ? most : 2048;
    change_begin(seed);
    input_read(&input, data, len);
    switch (below(10)) {
    case 0:
        return LLVMFuzzerMutate(data, len, most);
    case 1:
        if (input.book.len <= book_most)
            input.book.len = LLVMFuzzerMutate(input.book.at, input.book.len, book_most);
        break;
    case 2:
    case 3:
        change_pool(&input.pool);
        break;
    case 4:
    case 5:
        change_book(&input.book);
        break;
    case 6:
        go_on(&input, seed);
        break;
    default:
        change_script(&input);
    }
    return input_write(&input, data, most);
}

/* The calls of the second made on the first, behind the first's or instead of them, or a part of its book put in. */
size_t LLVMFuzzerCustomCrossOver(const uint8_t *first, size_t first_len, const uint8_t *second, size_t second_len,
                                 uint8_t *to, size_t most, unsigned seed)
{
    static struct input made, other;
    change_begin(seed);
    input_read(&made, first, first_len);
    input_read(&other, second, second_len);
    switch (below(3)) {
    case 0:
        change_book_by(&made.book, &other.book);
        break;
    case 1:
        made.count = 0;
        /* fall through */
    default:
        for (size_t i = 0; i < other.count && made.count < SCRIPT_MOST; i++)
            made.script[made.count++] = other.script[i];
    }
    return input_write(&made, to, most);
}
