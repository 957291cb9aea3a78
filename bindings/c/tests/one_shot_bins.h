/* A call that packs once: its bins, and what is to go into them. To be included once in a program. */
#ifndef ONE_SHOT_BINS_H
#define ONE_SHOT_BINS_H

#include "packing_calls.h"

/* A call, by what it packs. */
typedef struct input {
    enum way way;
    rp_bin bins[BINS];
    size_t bin_count;
    request asked;
} input;

/* The bins of a call, each with its index as its id. */
static void shelve_bins(shelf *bins, const input *it)
{
    bins->count = it->bin_count;
    for (size_t i = 0; i < bins->count; i++) {
        bins->ids[i] = (uint32_t)i;
        bins->sizes[i] = it->bins[i];
        bins->free[i].list[0] = whole_of(&it->bins[i]);
        bins->free[i].count = 1;
    }
}

/* A box, or a member as a box in its group. */
static rp_box box_of(const request *it, size_t i)
{
    rp_box box = it->boxes[i < it->box_count ? i : it->members[i - it->box_count].index];
    box.group = group_of(it, i);
    return box;
}

#endif
