/* chase.h: the public calls of Nidraghera, a proved model finder.
 *
 * Four calls on numbers and byte buffers. Each accepts all bytes and numbers, ends, and does its work or answers the
 * one refusal number that fits; a refused call changes no byte of any buffer. What each call does is fixed by
 * document 01; the bytes of the pool and of a sheet stand in docs/FORMAT.md.
 *
 * What the host owes, and nothing else: each pointer is valid for its length (NULL with length 0 is fine), buffers
 * of one call do not overlap, none is longer than 2^63 - 1 bytes, and no other thread touches them during the call.
 * The book is only read.
 *
 * Stack: 2 KB are enough for chase_open, 3 KB for chase_take, 24 KB for chase_step and chase_run (the most that
 * tests/calls/stack measured: 1,000, 1,512, 17,728 and 17,744 bytes; docs/JUDGE.md says how).
 *
 * Refusals, lower numbers checked first:
 *    1  book over CHASE_BOOK_MOST bytes
 *    2  book ends before a wanted number or inside the mark
 *    3  wrong mark                          4  version not 1
 *    5  count or arity outside its range    6  unknown kind
 *    7  symbol or variable not declared     8  application with arguments at level 8
 *    9  argument count not the witness's   10  bytes left over
 *   11  pool length not CHASE_POOL_SIZE(n) for an n from 1 to 64
 *   12  unknown scheduler, strategy, bound or list; CHASE_UNBOUNDED with a number other than 0
 *   13  pool not sound for this book
 *   14  nothing waiting
 *   15  a child needs over 64 created elements, 128 keys or 128 facts
 *   16  children exceed the free slots plus the base's own
 *   17  fewer model numbers left than children
 *   18  list to take from is empty
 *   19  output shorter than CHASE_SHEET_SIZE
 * Of 2 to 10 the first fault in byte order decides.
 */
#ifndef CHASE_H
#define CHASE_H

#include <stddef.h>
#include <stdint.h>

#ifdef __cplusplus
extern "C" {
#endif

#define CHASE_BOOK_MOST 32768u
#define CHASE_HEADER_SIZE 208u
#define CHASE_SHEET_SIZE 2128u
#define CHASE_SLOTS_MOST 64u
#define CHASE_POOL_SIZE(slots) (CHASE_HEADER_SIZE + CHASE_SHEET_SIZE * (size_t)(slots))

/* scheduler */
#define CHASE_FIFO 0u
#define CHASE_LIFO 1u
/* strategy */
#define CHASE_LINEAR 0u
#define CHASE_FAIR 1u
/* bound, with a 32-bit number: nothing; admits size < number; admits depth <= number, twice alike */
#define CHASE_UNBOUNDED 0u
#define CHASE_DOMAIN_SIZE 1u
#define CHASE_DEPTH_PURE 2u
#define CHASE_DEPTH_REUSE 3u
/* list to take from */
#define CHASE_COMPLETE 0u
#define CHASE_BOUNDED 1u

/* Opens a pool: replaces all of it with one waiting, empty model 0 in slot 0. What the pool held before does not
 * matter. Answers 0, or a refusal from 1 to 12. */
uint32_t chase_open(const uint8_t *book, size_t book_len, uint8_t *pool, size_t pool_len, uint32_t scheduler,
                    uint32_t strategy);

/* One step: the first waiting sheet is completed, dropped, or replaced by its children. Answers 0, or a refusal from
 * 1 to 17. */
uint32_t chase_step(const uint8_t *book, size_t book_len, uint8_t *pool, size_t pool_len, uint32_t bound,
                    uint32_t number);

/* Up to `budget` steps. A run that passes 1 to 13 is no refusal: it keeps its steps, even none, and answers why it
 * stopped (0 for a spent budget, else 14 to 17, what the next step would answer) and how many steps it made. A run
 * that is refused answers 1 to 13 and 0 steps. Arguments are checked even with budget 0. */
struct chase_ran {
    uint32_t stop;
    uint32_t steps;
};
struct chase_ran chase_run(const uint8_t *book, size_t book_len, uint8_t *pool, size_t pool_len, uint32_t bound,
                           uint32_t number, uint32_t budget);

/* Takes the first sheet of a list: copies its CHASE_SHEET_SIZE bytes to the front of `out`, leaves the later bytes of
 * `out` untouched, and frees its slot. Answers 0, or a refusal: 1 to 13, 18, 19. */
uint32_t chase_take(const uint8_t *book, size_t book_len, uint8_t *pool, size_t pool_len, uint32_t list, uint8_t *out,
                    size_t out_len);

#ifdef __cplusplus
}
#endif

#endif
