/* A host in C. It opens a pool for a book, makes a step, then runs in sessions of a few steps, each of which saves the
 * pool to a file and loads it again, until nothing waits, a limit is met or 1,000 steps are made; then it takes the
 * sheets and prints them.
 *
 *   host POOL [INPUT]
 *
 * POOL is the file for the pool. INPUT has 8 bytes of settings (scheduler, strategy, bound, 0, then the bound's number,
 * low byte first) and a book; without it the host takes document 01's example. It prints what document 01's listing
 * program prints. */
#include <stdio.h>
#include <stdlib.h>
#include <string.h>

#include "chase.h"

enum { SLOTS = 12, BUDGET = 1000, SESSION = 5 };

static const uint8_t example[] = {
    0, 0, 0, 0, 0, 0, 0, 0,       /* FIFO, Linear, Unbounded */
    'R', 'U', 'L', 1, 0,          /* mark, version 1 */
    0, 0, 0, 0, 1, 0, 1, 0, 0, 0, /* no constants, no functions, 1 relation, 1 constant witness, no function witness */
    1, 0,                         /* the relation takes 1 argument */
    1, 0,                         /* 1 sequent: */
    0, 0, 0, 0,                   /* no free variables, empty body */
    1, 0,                         /* 1 disjunct: */
    1, 0, 0, 0, 0, 0, 0, 0,       /* 1 origin: constant witness 0, no arguments */
    1, 0,                         /* 1 literal: */
    0, 0, 0, 0, 0, 0, 0, 0        /* relation 0 of variable 0, the existential */
};

/* What the calls are given: a book, a bound, a pool. */
struct chase {
    const uint8_t *book;
    size_t book_len;
    uint32_t bound, number;
    uint8_t pool[CHASE_POOL_SIZE(SLOTS)];
};

static void stop_with(const char *what)
{
    perror(what);
    exit(2);
}

/* A refusal is printed alone, and is no failure of the host. */
static void refused(uint32_t answer)
{
    printf("refused %u\n", answer);
    exit(0);
}

static void save(const char *name, const struct chase *chase)
{
    FILE *file = fopen(name, "wb");
    if (!file || fwrite(chase->pool, 1, sizeof chase->pool, file) != sizeof chase->pool || fclose(file) != 0)
        stop_with(name);
}

static void load(const char *name, struct chase *chase)
{
    FILE *file = fopen(name, "rb");
    memset(chase->pool, 255, sizeof chase->pool);
    if (!file || fread(chase->pool, 1, sizeof chase->pool, file) != sizeof chase->pool || fclose(file) != 0)
        stop_with(name);
}

/* Opens the pool for an input: settings, then the book. */
static void open_pool(struct chase *chase, const uint8_t *input, size_t len)
{
    uint32_t answer;
    if (len < 8)
        refused(2);
    chase->book = input + 8;
    chase->book_len = len - 8;
    chase->bound = input[2];
    chase->number = input[4] | (uint32_t)input[5] << 8 | (uint32_t)input[6] << 16 | (uint32_t)input[7] << 24;
    answer = chase_open(chase->book, chase->book_len, chase->pool, sizeof chase->pool, input[0], input[1]);
    if (answer == 0 && input[3] != 0)
        answer = 12;
    if (answer != 0)
        refused(answer);
}

/* Makes up to BUDGET steps, the first one by itself, the others in sessions; answers as one run would. */
static struct chase_ran run_in_sessions(struct chase *chase, const char *name)
{
    struct chase_ran all = {0, 0}, ran;
    all.stop = chase_step(chase->book, chase->book_len, chase->pool, sizeof chase->pool, chase->bound, chase->number);
    all.steps = all.stop == 0;
    while (all.stop == 0 && all.steps < BUDGET) {
        const uint32_t left = BUDGET - all.steps;
        save(name, chase);
        load(name, chase);
        ran = chase_run(chase->book, chase->book_len, chase->pool, sizeof chase->pool, chase->bound, chase->number,
                        left < SESSION ? left : SESSION);
        all.stop = ran.stop;
        all.steps += ran.steps;
    }
    return all;
}

static unsigned two_bytes(const uint8_t *at)
{
    return at[0] + 256u * at[1];
}

/* The elements of a key or fact. */
static void print_arguments(const uint8_t *entry)
{
    for (unsigned i = 0; i < entry[2]; i++)
        printf(" %u", entry[3 + i]);
}

/* The keys of a sheet, the depths of the elements that they yield, and the facts (docs/FORMAT.md). */
static void print_sheet(const uint8_t *sheet)
{
    const unsigned created = two_bytes(sheet + 4), keys = two_bytes(sheet + 6), facts = two_bytes(sheet + 8);
    uint8_t yielded[256] = {0};
    for (const uint8_t *key = sheet + 16; key < sheet + 16 + 8 * keys; key += 8) {
        printf("key %u %u", key[0], key[1]);
        print_arguments(key);
        printf(" = %u\n", key[7]);
        yielded[key[7]] = 1;
    }
    for (unsigned element = 0; element < created; element++)
        if (yielded[element])
            printf("depth %u %u\n", element, sheet[2064 + element]);
    for (const uint8_t *fact = sheet + 1040; fact < sheet + 1040 + 8 * facts; fact += 8) {
        printf("fact %u", fact[1]);
        print_arguments(fact);
        printf("\n");
    }
}

/* Takes every sheet of a list and prints it; 18 says that there is none left. */
static void take_all(struct chase *chase, uint32_t list, const char *standing)
{
    uint8_t sheet[CHASE_SHEET_SIZE];
    uint32_t answer;
    while ((answer = chase_take(chase->book, chase->book_len, chase->pool, sizeof chase->pool, list, sheet,
                                sizeof sheet)) == 0) {
        printf("%s %u\n", standing, two_bytes(sheet));
        print_sheet(sheet);
    }
    if (answer != 18)
        refused(answer);
}

int main(int count, char **words)
{
    static struct chase chase;
    static uint8_t input[8 + CHASE_BOOK_MOST + 1]; /* a byte more than the longest book, so that a longer one is seen */
    size_t len = sizeof example;
    struct chase_ran ran;
    if (count != 2 && count != 3) {
        fprintf(stderr, "usage: host POOL [INPUT]\n");
        return 2;
    }
    memcpy(input, example, sizeof example);
    if (count == 3) {
        FILE *file = fopen(words[2], "rb");
        if (!file)
            stop_with(words[2]);
        len = fread(input, 1, sizeof input, file);
        fclose(file);
    }
    open_pool(&chase, input, len);
    ran = run_in_sessions(&chase, words[1]);
    if (ran.stop >= 1 && ran.stop <= 13)
        refused(ran.stop);
    printf("stop %u steps %u\n", ran.stop, ran.steps);
    take_all(&chase, CHASE_COMPLETE, "complete");
    take_all(&chase, CHASE_BOUNDED, "bounded");
    printf("waiting %u\n", chase.pool[12]);
    return 0;
}
