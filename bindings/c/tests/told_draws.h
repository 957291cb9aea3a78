/* Steps that are drawn for collections that are. To be included once in a program. */
#ifndef TOLD_DRAWS_H
#define TOLD_DRAWS_H

#include "packing_draws.h"

/* Steps, into bins of these ids and now and then into one that is not there. Most name a group that no other names. */
static void draw_steps(request *asked, const uint32_t *ids, size_t id_count)
{
    size_t entries = entries_of(asked), from = entries > 0 ? within(0, (uint32_t)entries - 1) : 0;
    asked->step_count = entries > 0 ? within(0, TOLD_STEPS) : 0;
    for (size_t i = 0; i < asked->step_count; i++) {
        rp_step *it = &asked->steps[i];
        it->index = (uint32_t)((from + (within(0, 11) == 11 ? 0 : i)) % entries);
        it->bin = within(0, 31) == 31 || id_count == 0 ? 5 : ids[within(0, (uint32_t)id_count - 1)];
        it->heuristic = within(0, HEURISTICS - 1);
    }
}

/* Has a step name a box that is not there, or a heuristic. */
static void mistake_step(request *asked)
{
    static const uint32_t unknown[] = {HEURISTICS, RP_BEST, UINT32_MAX};
    if (asked->step_count == 0)
        return;
    rp_step *it = &asked->steps[within(0, (uint32_t)asked->step_count - 1)];
    if (within(0, 1))
        it->index = within(0, 1) ? (uint32_t)entries_of(asked) : UINT32_MAX;
    else
        it->heuristic = unknown[within(0, 2)];
}

/* A collection, and steps for it, in one of which now and then something is wrong. */
static void draw_told(request *asked, uint32_t most_boxes, uint32_t most_members, uint32_t depth, const uint32_t *ids, size_t id_count)
{
    draw_collection(asked, most_boxes, most_members, depth);
    asked->heuristic = 0;
    draw_steps(asked, ids, id_count);
    if (within(0, 11) == 11)
        mistake_step(asked);
}

#endif
