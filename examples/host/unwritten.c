/* A run on a pool that nobody wrote, which valgrind has to report from within the call (examples/host/run). */
#include <stdlib.h>

#include "chase.h"

int main(void)
{
    static const uint8_t book[17] = {'R', 'U', 'L', 1}; /* nothing declared, no rules */
    uint8_t *pool = malloc(CHASE_POOL_SIZE(1));
    if (pool)
        chase_run(book, sizeof book, pool, CHASE_POOL_SIZE(1), CHASE_UNBOUNDED, 0, 1);
    free(pool);
    return 0;
}
