/* The calls that pack once, with each request for memory refused in turn. To be included once in a program. */
#ifndef ONE_SHOT_REFUSALS_H
#define ONE_SHOT_REFUSALS_H

#include <limits.h>

#include "one_shot.h"

/* Each request is refused in turn. With all after it refused too, want of memory is answered. Alone it may have been for room
   that was not needed, and then the answer is the one with all memory. How many requests there were. */
static long refuse_each(const input *it, const reply *right)
{
    static reply again;
    long all = requests;
    for (long request = 0; request < all; request++) {
        check(call_once(it, request, LONG_MAX, &again) == RP_OUT_OF_MEMORY, "want of memory is not answered");
        uint32_t alone = call_once(it, request, request, &again);
        check(alone == RP_OUT_OF_MEMORY || are_same_replies(right, &again), "a refused request changes the answer");
    }
    return all;
}

#endif
