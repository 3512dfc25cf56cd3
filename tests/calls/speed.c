/* speed.c: the exported calls (where EXPORTED is defined), the reference, and the published Rust (where PUBLISHED is) in one
 * program, in turns on the same books; after every round of calls the answers and the pools are held to each other, and the
 * models of the published Rust to what the pool says. Times are those of the processor, so that other programs on the
 * machine count for little.
 *
 *   speed ROUNDS ELEMENTS LISTINGS
 *
 * Choices: a book that makes so many elements and then has one sequent of four variables that fires at none of its
 * elements^4 choices; the step that finds this out is timed. Steps: the recorded inputs of the listing program, each
 * opened in twelve slots; a run of as many steps as the input allows, 1,000 at most, is timed, so that nobody makes a step
 * that is refused, which the published Rust would not refuse; and then the same steps made one by one, where each call
 * checks book and pool anew. The published Rust has nothing to check, and is left out there. */
#define _GNU_SOURCE
#include <stdarg.h>
#include <stdio.h>
#include <stdlib.h>
#include <string.h>
#include <time.h>

#include "chase.h"
#include "recorded.h"

typedef uint32_t open_call(const uint8_t *, size_t, uint8_t *, size_t, uint32_t, uint32_t);
typedef uint32_t step_call(const uint8_t *, size_t, uint8_t *, size_t, uint32_t, uint32_t);
typedef struct chase_ran run_call(const uint8_t *, size_t, uint8_t *, size_t, uint32_t, uint32_t, uint32_t);
typedef uint32_t hold_call(const uint8_t *, size_t);

open_call reference_open, published_open;
step_call reference_step;
run_call reference_run, published_run;
hold_call published_holds;

static const struct engine {
    const char *name;
    open_call *open;
    step_call *step;
    run_call *run;
    hold_call *holds; /* of one that has no pool: is what it has what a pool says? */
} engines[] = {
#ifdef EXPORTED
    {"exported calls", chase_open, chase_step, chase_run, NULL},
#endif
    {"reference", reference_open, reference_step, reference_run, NULL},
#ifdef PUBLISHED
    {"published Rust", published_open, NULL, published_run, published_holds},
#endif
};

enum { ENGINES = sizeof engines / sizeof engines[0] };
#ifdef PUBLISHED
enum { POOLED = ENGINES - 1 }; /* those that have a pool */
#else
enum { POOLED = ENGINES };
#endif
enum { SLOTS = 12, BUDGET = 1000, MOST = 1024, ELEMENTS_MOST = 64 };

static uint8_t pools[ENGINES][CHASE_POOL_SIZE(SLOTS)];
enum { POOL = CHASE_POOL_SIZE(SLOTS) };

struct input {
    struct bytes all; /* eight bytes of settings, then the book */
    uint32_t steps;
};

static struct input inputs[MOST];
static size_t input_count;

__attribute__((noreturn, format(printf, 1, 2))) static void fail(const char *format, ...)
{
    va_list words;
    va_start(words, format);
    fputs("speed: ", stderr);
    vfprintf(stderr, format, words);
    fputc('\n', stderr);
    va_end(words);
    exit(1);
}

static double now(void)
{
    struct timespec time;
    clock_gettime(CLOCK_PROCESS_CPUTIME_ID, &time);
    return (double)time.tv_sec + (double)time.tv_nsec / 1e9;
}

/* Are the answers of the first so many alike, and the pools or what stands for them? The first has a pool. */
static void hold(const char *where, size_t index, const struct chase_ran *answers, int count)
{
    for (int i = 1; i < count; i++) {
        const struct engine *engine = &engines[i];
        if (answers[i].stop != answers[0].stop || answers[i].steps != answers[0].steps)
            fail("%s %zu: %s answers %u after %u steps, %s %u after %u", where, index, engines[0].name, answers[0].stop,
                 answers[0].steps, engine->name, answers[i].stop, answers[i].steps);
        if (engine->holds ? !engine->holds(pools[0], POOL) : memcmp(pools[0], pools[i], POOL) != 0)
            fail("%s %zu: %s and %s come to different sheets", where, index, engines[0].name, engine->name);
    }
}

/* Which of so many is asked as k-th in a round: in turns. */
static int turn(size_t round, int k, int count)
{
    return (int)((round + (size_t)k) % (size_t)count);
}

/* Each engine's best time so far. */
struct best {
    double time[ENGINES];
};

static struct best fresh(void)
{
    struct best best;
    for (int i = 0; i < ENGINES; i++)
        best.time[i] = 1e9;
    return best;
}

static void keep(struct best *best, const double *took, int count)
{
    for (int i = 0; i < count; i++)
        if (took[i] < best->time[i])
            best->time[i] = took[i];
}

/* ---- choices */

static unsigned elements;

/* Steps that make the elements, 16 each. */
static unsigned filling(void)
{
    return (elements + 15) / 16;
}

static uint8_t book[CHASE_BOOK_MOST];
static size_t book_len;

static void put(unsigned count, ...)
{
    va_list numbers;
    va_start(numbers, count);
    while (count-- > 0) {
        const unsigned number = va_arg(numbers, unsigned);
        book[book_len++] = (uint8_t)number;
        book[book_len++] = (uint8_t)(number >> 8);
    }
    va_end(numbers);
}

/* What the sequent of four variables asks: each says why it fires at no choice. */
enum shape { FACTS, TERMS, HEAD, SHAPES };
static const char *const shapes[SHAPES] = {
    "P(x), P(y), P(z) and not Q(x, w)",
    "P(x), P(y) and no f(z)",
    "no body, the head P(x) holds",
};

static void make_book(enum shape shape)
{
    unsigned made = 0, some;
    memcpy(book, "RUL", 3);
    book_len = 3;
    put(6, 1u, elements, 1u, 2u, 0u, 0u); /* constants, the function f, the relations P and Q */
    put(3, 1u, 1u, 2u);
    put(1, 1u + filling());
    for (; made < elements; made += some) {
        unsigned k;
        some = elements - made < 16 ? elements - made : 16;
        put(5, 0u, 0u, 1u, 0u, some); /* no variables and no body; one disjunct, P of so many constants */
        for (k = 0; k < some; k++)
            put(4, 0u, 0u, 1u, made + k);
    }
    put(1, 4u);
    if (shape == FACTS) {
        put(1, 4u);
        put(12, 0u, 0u, 0u, 0u, 0u, 0u, 0u, 1u, 0u, 0u, 0u, 2u);
        put(6, 0u, 1u, 0u, 0u, 0u, 3u);
        put(1, 0u);
    } else if (shape == TERMS) {
        put(1, 3u);
        put(8, 0u, 0u, 0u, 0u, 0u, 0u, 0u, 1u);
        put(6, 0u, 0u, 2u, 0u, 0u, 2u);
        put(1, 0u);
    } else {
        put(1, 0u);
        put(7, 1u, 0u, 1u, 0u, 0u, 0u, 0u);
    }
}

/* One engine's time for the step that goes through all choices of the book. */
static double go_through(int i, size_t round, struct chase_ran *answer)
{
    double begun;
    if (engines[i].open(book, book_len, pools[i], POOL, 0, 0) != 0)
        fail("round %zu: the book is refused by the %s", round, engines[i].name);
    *answer = engines[i].run(book, book_len, pools[i], POOL, 0, 0, filling());
    if (answer->stop != 0)
        fail("round %zu: the %s stops with %u before the choices", round, engines[i].name, answer->stop);
    begun = now();
    *answer = engines[i].run(book, book_len, pools[i], POOL, 0, 0, 1);
    return now() - begun;
}

static void time_choices(size_t rounds)
{
    const double choices = (double)elements * elements * elements * elements;
    for (int shape = 0; shape < SHAPES; shape++) {
        struct best best = fresh();
        make_book((enum shape)shape);
        for (size_t round = 0; round < rounds; round++) {
            struct chase_ran answers[ENGINES];
            double took[ENGINES];
            for (int k = 0; k < ENGINES; k++) {
                const int i = turn(round, k, ENGINES);
                took[i] = go_through(i, round, &answers[i]);
            }
            hold("choices", (size_t)shape, answers, ENGINES);
            if (answers[0].stop != 0 || answers[0].steps != 1 || pools[0][13] != 1)
                fail("%s: the sheet is not complete", shapes[shape]);
            keep(&best, took, ENGINES);
        }
        for (int i = 0; i < ENGINES; i++)
            printf("choices over %u elements, %s: %s %.4f million a second\n", elements, shapes[shape], engines[i].name,
                   choices / best.time[i] / 1e6);
    }
}

/* ---- steps */

/* A run of an input from an opened pool: one call, or a call for each step. Answers the time. */
static double go(int i, const struct input *input, uint32_t budget, int single, struct chase_ran *answer)
{
    const struct engine *engine = &engines[i];
    const uint8_t *settings = input->all.at, *at = settings + 8;
    const size_t len = input->all.len - 8;
    const uint32_t number = (uint32_t)settings[4] | (uint32_t)settings[5] << 8 | (uint32_t)settings[6] << 16 |
                            (uint32_t)settings[7] << 24;
    double begun;
    engine->open(at, len, pools[i], POOL, settings[0], settings[1]);
    begun = now();
    if (!single) {
        *answer = engine->run(at, len, pools[i], POOL, settings[2], number, budget);
        return now() - begun;
    }
    *answer = (struct chase_ran){0, 0};
    while (answer->steps < budget &&
           (answer->stop = engine->step(at, len, pools[i], POOL, settings[2], number)) == 0)
        answer->steps++;
    return now() - begun;
}

/* The inputs that are not refused, each with the steps that it allows. */
static void read_inputs(const char *name)
{
    FILE *file = fopen(name, "r");
    char *line = NULL;
    size_t room = 0;
    if (!file)
        fail("%s cannot be read", name);
    while (getline(&line, &room, file) >= 0) {
        struct input input = {{NULL, 0}, 0};
        struct chase_ran ran;
        if (strncmp(line, "input ", 6) != 0 || input_count == MOST)
            continue;
        input.all = recorded_bytes(line + 6);
        if (input.all.len < 8 || input.all.at[3] != 0)
            continue;
        go(0, &input, BUDGET, 0, &ran);
        input.steps = ran.steps;
        if (ran.steps > 0)
            inputs[input_count++] = input;
    }
    free(line);
    fclose(file);
}

/* The time of each of the first so many engines for all inputs, in one round. */
static void time_inputs(size_t round, int single, int count, double *took)
{
    for (int i = 0; i < count; i++)
        took[i] = 0;
    for (size_t n = 0; n < input_count; n++) {
        struct chase_ran answers[ENGINES];
        for (int k = 0; k < count; k++) {
            const int i = turn(round + n, k, count);
            took[i] += go(i, &inputs[n], inputs[n].steps, single, &answers[i]);
        }
        hold(single ? "steps" : "runs", n, answers, count);
        if (answers[0].stop != 0 || answers[0].steps != inputs[n].steps)
            fail("input %zu: %u steps, and before %u", n, answers[0].steps, inputs[n].steps);
    }
}

static void time_steps(size_t rounds, int single)
{
    const int count = single ? POOLED : ENGINES;
    struct best best = fresh();
    unsigned long long steps = 0;
    for (size_t round = 0; round < rounds; round++) {
        double took[ENGINES];
        time_inputs(round, single, count, took);
        keep(&best, took, count);
    }
    for (size_t n = 0; n < input_count; n++)
        steps += inputs[n].steps;
    for (int i = 0; i < count; i++)
        printf("steps, %s: %s %.1f a second (%llu steps of %zu inputs)\n", single ? "a call each" : "in runs",
               engines[i].name, (double)steps / best.time[i], steps, input_count);
}

int main(int argc, char **argv)
{
    const size_t rounds = argc == 4 ? strtoul(argv[1], NULL, 10) : 0;
    elements = argc == 4 ? (unsigned)strtoul(argv[2], NULL, 10) : 0;
    if (rounds == 0 || elements == 0 || elements > ELEMENTS_MOST)
        fail("usage: speed ROUNDS ELEMENTS LISTINGS, elements 1 to %d", ELEMENTS_MOST);
    setvbuf(stdout, NULL, _IOLBF, 0);
    read_inputs(argv[3]);
    time_steps(2 * rounds, 0);
    time_steps(2 * rounds, 1);
    time_choices(rounds);
    return 0;
}
