/* seen.h: what libFuzzer is told about a run, by counters in the section that it looks at for this: it keeps an input
 * that makes a counter not zero, or larger, as none before it did. Counted are
 *  - each basic block of the archive, the first time that it is ever reached: a breakpoint stands on its first byte and
 *    is taken away when it is met, as the archive itself tells nothing;
 *  - each answer of each kind of call, from 14 on and 0 together with what the call before it was and answered;
 *  - in coarse steps, what the pool has after a call: how many sheets in each list, and of the first and last sheet of
 *    each list the elements, keys, facts, elements merged away and the greatest depth; and the steps of a run;
 *  - each number of elements, keys and facts in such a sheet, so that a sheet that is fuller than any before is kept. */
#ifndef SEEN_H
#define SEEN_H

#include "asked.h"

/* Puts the breakpoints; the file has the address of each block, as hex digits, one to a line, in rising order. */
void seen_begin(const char *blocks);

/* A run begins; a call was made and left this pool; what was seen in this run is forgotten. */
void seen_run(void);
void seen_call(const struct call *call, struct answer answer, const struct buffer *pool);
void seen_forget(void);

/* Prints how many blocks there are, and how many were reached; those that were not, on standard error. */
void seen_print(void);

#endif
