/* asked.c: a call made between fences, and what is asked of it. */
#include "asked.h"

#include <stdio.h>
#include <string.h>

#include "chase.h"

enum { MANY = 300000 };

struct state now;
uint64_t asked_answers[CALLS][ANSWERS], asked_late;

static struct state after;

static void lend(struct lent *lent, const struct buffer *from)
{
    lent_put(lent, from->len, below(2) ? FRONT : BACK);
    if (from->len > 0)
        memcpy(lent->at, from->at, from->len);
}

static void save(struct buffer *to, const struct lent *lent)
{
    to->len = lent->len;
    if (lent->len > 0)
        memcpy(to->at, lent->at, lent->len);
}

static int same(const struct buffer *buffer, const struct lent *lent)
{
    return buffer->len == lent->len && (lent->len == 0 || memcmp(buffer->at, lent->at, lent->len) == 0);
}

/* Makes a call on a state's bytes, in places that are chosen anew. Answers 0 when it took too long. */
static int make(const struct call *call, const struct state *state, struct answer *answer)
{
    lend(&book, &state->book);
    lend(&pool, &state->pool);
    lend(&out, &state->out);
    if (lent_call_in_time(call, answer))
        return 1;
    asked_late++;
    return 0;
}

/* Does this kind of call have such an answer? */
static int answers_so(uint32_t which, uint32_t number)
{
    static const uint32_t most[CALLS] = {12, 17, 17, 13};
    return number <= most[which] || (which == CALL_TAKE && (number == 18 || number == 19));
}

/* The same with the steps: none but of a run, all of the budget where it is spent, fewer where something else stops. */
static int known(const struct call *call, struct answer answer)
{
    const int refused = answer.stop >= 1 && answer.stop <= 13;
    if (!answers_so(call->which, answer.stop))
        return 0;
    if (call->which != CALL_RUN || refused)
        return answer.steps == 0;
    return answer.stop == 0 ? answer.steps == call->given[2] : answer.steps < call->given[2];
}

/* What is asked of the bytes that a call leaves. */
static void look(const struct call *call, struct answer answer)
{
    const char *name = call_names[call->which];
    const int done = call->which == CALL_RUN ? answer.steps > 0 : answer.stop == 0;
    const int taken = call->which == CALL_TAKE && answer.stop == 0;
    if (!known(call, answer))
        lent_fail("%s answers %u %u", name, answer.stop, answer.steps);
    if (!done && !same(&now.pool, &pool))
        lent_fail("%s answers %u and changes the pool", name, answer.stop);
    if (!taken && !same(&now.out, &out))
        lent_fail("%s answers %u and changes the output", name, answer.stop);
    if (taken) {
        const size_t sheet = CHASE_SHEET_SIZE, list = call->given[0] == CHASE_COMPLETE ? 13 : 14;
        const size_t slot = now.pool.at[list == 13 ? 80 : 144];
        if (out.len < sheet)
            lent_fail("a take into %zu bytes answers 0", out.len);
        if (memcmp(out.at, now.pool.at + CHASE_HEADER_SIZE + slot * sheet, sheet) != 0)
            lent_fail("a take copies something else than the first sheet");
        if (memcmp(out.at + sheet, now.out.at + sheet, out.len - sheet) != 0)
            lent_fail("a take writes later bytes of the output");
        if (pool.at[list] + 1 != now.pool.at[list])
            lent_fail("a take does not make its list shorter");
    }
}

/* The call made again does the same, and a step is a run with a budget of 1. */
static int again(const struct call *call, struct answer first)
{
    struct call other = *call;
    struct answer second, wanted = first;
    if (call->which == CALL_STEP && below(2)) {
        other.which = CALL_RUN;
        other.given[2] = 1;
        wanted.steps = first.stop == 0;
    }
    if (!make(&other, &now, &second))
        return 0;
    if (second.stop != wanted.stop || second.steps != wanted.steps || !same(&after.pool, &pool) ||
        !same(&after.out, &out))
        lent_fail("%s: %u %u, and again by %s: %u %u", call_names[call->which], first.stop, first.steps,
                  call_names[other.which], second.stop, second.steps);
    return 1;
}

/* A pool that a call left is sound. */
static int sound(void)
{
    const struct call none = {CALL_RUN, {CHASE_UNBOUNDED, 0, 0}};
    struct answer answer;
    if (!make(&none, &after, &answer))
        return 0;
    if (answer.stop != 0 || answer.steps != 0)
        lent_fail("a pool that a call left: a run of no steps answers %u %u", answer.stop, answer.steps);
    return 1;
}

int asked_call(const struct call *call, struct answer *answer)
{
    if (!make(call, &now, answer))
        return 0;
    look(call, *answer);
    asked_answers[call->which][answer->stop]++;
    copy(&after.book, &now.book);
    save(&after.pool, &pool);
    save(&after.out, &out);
    if (below(4) == 0 && !again(call, *answer))
        return 0;
    if (answer->stop == 0 && below(4) == 0 && !sound())
        return 0;
    copy(&now.pool, &after.pool);
    return 1;
}

struct call asked_any(size_t *out_len)
{
    static const uint32_t budgets[] = {0, 1, 2, 3, 5, 8, 13};
    const uint32_t kind = below(4), odd = below(40);
    struct call call = {(uint32_t)below(8), {0, 0, 0}};
    call.which = call.which < 1 ? CALL_OPEN : call.which < 3 ? CALL_STEP : call.which < 6 ? CALL_RUN : CALL_TAKE;
    if (call.which == CALL_STEP || call.which == CALL_RUN) {
        call.given[0] = kind;
        call.given[1] = kind ? (uint32_t)below(6) : 0;
        call.given[2] = call.which == CALL_RUN ? budgets[below(7)] : 0;
    } else {
        call.given[0] = below(2);
        call.given[1] = call.which == CALL_OPEN ? (uint32_t)below(2) : 0;
    }
    if (odd < 2)
        call.given[odd] = odd_number();
    *out_len = below(6) ? CHASE_SHEET_SIZE + below(3) : below(CHASE_SHEET_SIZE);
    return call;
}

void asked_print(void)
{
    for (uint32_t which = 0; which < CALLS; which++) {
        printf("%s:", call_names[which]);
        for (uint32_t number = 0; number < ANSWERS; number++)
            if (answers_so(which, number))
                printf(" %u x %ju", number, (uintmax_t)asked_answers[which][number]);
        printf("\n");
    }
    fflush(stdout);
    for (uint32_t which = 0; which < CALLS; which++)
        for (uint32_t number = 0; number < ANSWERS; number++)
            if (lent_calls >= MANY && answers_so(which, number) && asked_answers[which][number] == 0)
                lent_fail("%s never answers %u", call_names[which], number);
}
