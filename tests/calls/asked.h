/* asked.h: what is asked of every call that a fuzzing program makes:
 *  - it ends, touches nothing that it was not lent, and answers a number that its kind of call has;
 *  - refused, it changes no byte;
 *  - made again on the same bytes in other places, it does the same;
 *  - a step is a run with a budget of 1;
 *  - done, it leaves a pool that is sound: a run with budget 0 answers 0;
 *  - a take copies a sheet's length, leaves later bytes, and makes one list one shorter.
 * Every buffer stands between fences (lent.h), in a place that is chosen anew for each call. The third, fourth and fifth
 * are asked of one call in four. */
#ifndef ASKED_H
#define ASKED_H

#include "change.h"
#include "lent.h"

enum { ANSWERS = 20 }; /* more than any answer */

/* The bytes of a state: what a call is given, and what it leaves. */
struct state {
    struct buffer book, pool, out;
};

extern struct state now;                       /* what the next call is given */
extern uint64_t asked_answers[CALLS][ANSWERS]; /* how often each answer came */
extern uint64_t asked_late;                    /* how many calls were broken off */

/* Makes a call on `now`, asks all that is asked of it, and goes on from the pool that it left; tells its answer.
 * Answers 0 when it took too long. */
int asked_call(const struct call *call, struct answer *answer);

/* Any call, its numbers mostly such as calls have, and a length for its output. */
struct call asked_any(size_t *out_len);

/* Prints how often each answer came. Of many calls each answer has to come at least once. */
void asked_print(void);

#endif
