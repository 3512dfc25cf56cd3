/* lent.h: the buffers that the tests lend to the exported calls, fenced so that a touch outside them is found.
 *
 * A buffer stands in pages of its own between two pages that cannot be touched, against one of the two: a read or
 * write beyond that end stops the program. The rest of its pages is filled with FILL and looked at after every call.
 * The book's pages can only be read while a call is made. */
#ifndef LENT_H
#define LENT_H

#include <stddef.h>
#include <stdint.h>

/* qemu 7.2 enters the handler of a signal with a stack that is eight bytes off, which the compiler cannot know. */
#ifdef __x86_64__
#define HANDLER __attribute__((force_align_arg_pointer))
#else
#define HANDLER
#endif

enum { LENT_MOST = 1 << 20 }; /* the longest buffer that can be lent, in bytes */

/* Which end stands at a fence; KEEP leaves a buffer as it is. */
enum place { KEEP, FRONT, BACK };

struct lent {
    const char *name;
    uint8_t *room; /* LENT_MOST bytes and a fence before and behind */
    size_t pages;  /* how many pages behind the first fence can be touched */
    uint8_t *at;   /* the buffer; NULL when it is empty and stands at the front */
    size_t len;
};

enum { CALL_OPEN, CALL_STEP, CALL_RUN, CALL_TAKE, CALLS };

struct call {
    uint32_t which;
    uint32_t given[3]; /* scheduler, strategy; bound, number, budget; list */
};

struct answer {
    uint32_t stop;
    uint32_t steps; /* of a run; else 0 */
};

extern struct lent book, pool, out;
extern const char *const call_names[CALLS];
extern uint64_t lent_calls;   /* how many calls were made */
extern void (*lent_end)(int); /* how lent_fail ends the program: _exit, unless another is set */

/* Makes room for the three buffers. A touch outside them, or a call that does not end within `seconds`, then ends the
 * program with a line on standard error that begins with `program` and says which call it was. */
void lent_begin(const char *program, unsigned seconds);

/* Gives a buffer a length and a place. Its bytes are whatever was there. */
void lent_put(struct lent *lent, size_t len, enum place place);

/* Makes a call on the three buffers, looks at what stands around them, and answers what it answered. */
struct answer lent_call(const struct call *call);

/* The same, but a call that does not end in time is broken off: answers 0, and the buffers are anyhow. */
int lent_call_in_time(const struct call *call, struct answer *answer);

/* Ends the program with a line on standard error. */
__attribute__((noreturn, format(printf, 1, 2))) void lent_fail(const char *format, ...);

#endif
