/*
 * A small use of every function of the header. It is compiled as C99 and as C++11, with warnings as errors, and run: 0 if all is well.
 */
#include "etzvanul.h"
#include "etzvanul.h" /* a second time, which must do no harm */

static uint8_t now[ETZVANUL_LARGEST_BYTES];
static uint8_t next[ETZVANUL_LARGEST_BYTES];

int main(void)
{
    uint8_t event[ETZVANUL_EVENT_BYTES];
    uint64_t result = etzvanul_fresh(now, sizeof now);

    if (etzvanul_answer(result) != ETZVANUL_OK || etzvanul_length(result) != ETZVANUL_FRESH_BYTES)
        return 1;
    etzvanul_make_event(event, ETZVANUL_NEW, 3, 0, 0, 0);
    result = etzvanul_step(now, etzvanul_length(result), event, sizeof event, next, sizeof next);
    if (etzvanul_answer(result) != ETZVANUL_OK || etzvanul_value(result) != 24)
        return 2;
    if (etzvanul_check(next, etzvanul_length(result)) != ETZVANUL_OK || etzvanul_check(next, 0) != ETZVANUL_SHORT)
        return 3;
    if (etzvanul_value(etzvanul_depth(next, etzvanul_length(result), 3, 24)) != ETZVANUL_NOTHING)
        return 4;
    return 0;
}
