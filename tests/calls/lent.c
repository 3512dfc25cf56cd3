/* lent.c: fenced buffers, and the calls made on them. */
#define _GNU_SOURCE
#include "lent.h"

#include <setjmp.h>
#include <signal.h>
#include <stdarg.h>
#include <stdio.h>
#include <stdlib.h>
#include <string.h>
#include <sys/mman.h>
#include <unistd.h>

#include "chase.h"

enum { PAGE = 4096, FILL = 0xa5 };

struct lent book = {.name = "book"}, pool = {.name = "pool"}, out = {.name = "out"};
const char *const call_names[CALLS] = {"chase_open", "chase_step", "chase_run", "chase_take"};

uint64_t lent_calls;
void (*lent_end)(int) = _exit;

static const char *program;
static unsigned most_seconds;
static const char *volatile calling = "no call";
static uint8_t filled[PAGE];
static int sealed; /* the book's pages can only be read now */
static sigjmp_buf late;
static volatile sig_atomic_t may_be_late;

void lent_fail(const char *format, ...)
{
    char line[256];
    va_list list;
    va_start(list, format);
    vsnprintf(line, sizeof line, format, list);
    va_end(list);
    fprintf(stderr, "%s: %s (call %ju)\n", program, line, (uintmax_t)lent_calls);
    lent_end(3);
    _exit(3);
}

static uint8_t *first_page(const struct lent *lent)
{
    return lent->room + PAGE;
}

/* Says which buffer a faulty address belongs to, and where it stands in it: before 0, or from its length on. */
HANDLER static void touched(int number, siginfo_t *info, void *context)
{
    const struct lent *all[] = {&book, &pool, &out};
    const uint8_t *to = info->si_addr;
    (void)context;
    if (number == SIGALRM && may_be_late)
        siglongjmp(late, 1);
    if (number == SIGALRM)
        lent_fail("%s did not end within %u seconds", calling, most_seconds);
    for (size_t i = 0; i < 3; i++)
        if (to >= all[i]->room && to < all[i]->room + LENT_MOST + 2 * PAGE)
            lent_fail("%s touches %s at %td, of %zu bytes", calling, all[i]->name, to - all[i]->at, all[i]->len);
    lent_fail("%s: signal %d at %p", calling, number, info->si_addr);
}

void lent_begin(const char *name, unsigned seconds)
{
    static uint8_t stack[1 << 16];
    const stack_t other = {.ss_sp = stack, .ss_size = sizeof stack};
    const int signals[] = {SIGSEGV, SIGBUS, SIGILL, SIGFPE, SIGABRT, SIGALRM};
    struct lent *all[] = {&book, &pool, &out};
    struct sigaction action = {.sa_flags = SA_SIGINFO | SA_ONSTACK};
    program = name;
    most_seconds = seconds;
    memset(filled, FILL, sizeof filled);
    for (size_t i = 0; i < 3; i++) {
        all[i]->room = mmap(NULL, LENT_MOST + 2 * PAGE, PROT_NONE, MAP_PRIVATE | MAP_ANONYMOUS, -1, 0);
        if (all[i]->room == MAP_FAILED)
            lent_fail("no room for buffers");
    }
    action.sa_sigaction = touched;
    if (sigaltstack(&other, NULL) != 0)
        lent_fail("no stack for signals");
    for (size_t i = 0; i < sizeof signals / sizeof *signals; i++)
        sigaction(signals[i], &action, NULL);
}

/* Lets `count` pages from `page` on be touched as `how` says. */
static void allow(const struct lent *lent, size_t page, size_t count, int how)
{
    if (count > 0 && mprotect(first_page(lent) + page * PAGE, count * PAGE, how) != 0)
        lent_fail("pages cannot be fenced");
}

void lent_put(struct lent *lent, size_t len, enum place place)
{
    const size_t pages = (len + PAGE - 1) / PAGE, slack = pages * PAGE - len;
    if (len > LENT_MOST)
        lent_fail("a buffer of %zu bytes is longer than %d", len, LENT_MOST);
    if (pages > lent->pages || lent == &book)
        allow(lent, 0, pages, PROT_READ | PROT_WRITE);
    sealed = sealed && lent != &book;
    if (pages < lent->pages)
        allow(lent, pages, lent->pages - pages, PROT_NONE);
    lent->pages = pages;
    lent->len = len;
    lent->at = first_page(lent) + (place == BACK ? slack : 0);
    memset(place == BACK ? first_page(lent) : lent->at + len, FILL, slack);
    if (len == 0 && place == FRONT)
        lent->at = NULL;
}

/* Nothing is written into the rest of a buffer's pages. */
static void look_around(const struct lent *lent)
{
    const uint8_t *end = first_page(lent) + lent->pages * PAGE;
    const size_t before = lent->len ? (size_t)(lent->at - first_page(lent)) : 0;
    const size_t behind = lent->len ? (size_t)(end - lent->at) - lent->len : 0;
    if (memcmp(first_page(lent), filled, before) != 0)
        lent_fail("%s writes before %s", calling, lent->name);
    if (memcmp(end - behind, filled, behind) != 0)
        lent_fail("%s writes behind %s", calling, lent->name);
}

struct answer lent_call(const struct call *call)
{
    const uint32_t *given = call->given;
    struct answer answer = {0, 0};
    if (call->which >= CALLS)
        lent_fail("there is no call %u", call->which);
    calling = call_names[call->which];
    lent_calls++;
    if (!sealed)
        allow(&book, 0, book.pages, PROT_READ);
    sealed = 1;
    alarm(most_seconds);
    if (call->which == CALL_OPEN) {
        answer.stop = chase_open(book.at, book.len, pool.at, pool.len, given[0], given[1]);
    } else if (call->which == CALL_STEP) {
        answer.stop = chase_step(book.at, book.len, pool.at, pool.len, given[0], given[1]);
    } else if (call->which == CALL_RUN) {
        struct chase_ran ran = chase_run(book.at, book.len, pool.at, pool.len, given[0], given[1], given[2]);
        answer = (struct answer){ran.stop, ran.steps};
    } else {
        answer.stop = chase_take(book.at, book.len, pool.at, pool.len, given[0], out.at, out.len);
    }
    alarm(0);
    look_around(&pool);
    look_around(&out);
    return answer;
}

int lent_call_in_time(const struct call *call, struct answer *answer)
{
    if (sigsetjmp(late, 1) != 0) {
        may_be_late = 0;
        fprintf(stderr, "%s: %s broken off after %u seconds (call %ju)\n", program, calling, most_seconds,
                (uintmax_t)lent_calls);
        return 0;
    }
    may_be_late = 1;
    *answer = lent_call(call);
    may_be_late = 0;
    return 1;
}
