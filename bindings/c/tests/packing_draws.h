/* Collections that are drawn. To be included once in a program. */
#ifndef PACKING_DRAWS_H
#define PACKING_DRAWS_H

#include "packing_calls.h"

enum { GROUPS = 5, LONGEST = 5 };

/* Boxes alone, at most so many, and no deeper than this. One in ten has no cells, and one in twenty calls has one that no bin
   holds. */
static void draw_boxes(request *asked, uint32_t most, uint32_t depth)
{
    memset(asked, 0, sizeof *asked);
    asked->box_count = within(0, most);
    for (size_t i = 0; i < asked->box_count; i++) {
        rp_box *box = &asked->boxes[i];
        box->width = within(0, 9) == 9 ? 0 : within(1, LONGEST);
        box->height = within(1, LONGEST);
        box->depth = within(1, depth);
        box->group = within(0, GROUPS - 1);
    }
    if (asked->box_count > 0 && within(0, 19) == 19)
        asked->boxes[0].height = UINT32_MAX;
    asked->places = asked->box_count;
    asked->heuristic = RP_VOLUME;
}

/* Gives the boxes members and exclusions, with which nothing is wrong. */
static void draw_groups(request *asked, uint32_t most)
{
    asked->member_count = asked->box_count > 0 ? within(0, most) : 0;
    asked->exclusion_count = within(0, EXCLUSIONS);
    for (size_t i = 0; i < asked->member_count; i++) {
        asked->members[i].index = within(0, (uint32_t)asked->box_count - 1);
        asked->members[i].group = within(0, GROUPS - 1);
    }
    for (size_t i = 0; i < asked->exclusion_count; i++) {
        asked->exclusions[i].one = within(0, GROUPS - 1);
        asked->exclusions[i].other = (asked->exclusions[i].one + within(1, GROUPS - 1)) % GROUPS;
    }
    asked->places = entries_of(asked);
}

/* Has the places be one less or one more than what is to be placed. */
static void mistake_places(request *asked)
{
    size_t right = entries_of(asked);
    asked->places = right > 0 && within(0, 1) ? right - 1 : right + 1;
}

static void mistake_heuristic(request *asked)
{
    static const uint32_t unknown[] = {HEURISTICS, RP_BEST - 1, RP_BEST + 1, UINT32_MAX};
    asked->heuristic = unknown[within(0, 3)];
}

static void mistake_member(request *asked)
{
    if (asked->member_count > 0)
        asked->members[within(0, (uint32_t)asked->member_count - 1)].index += (uint32_t)asked->box_count;
}

static void mistake_exclusion(request *asked)
{
    if (asked->exclusion_count == 0)
        return;
    rp_exclusion *last = &asked->exclusions[asked->exclusion_count - 1];
    last->other = last->one;
}

/* A collection and a heuristic. In one of three something is wrong, or two things are. */
static void draw_collection(request *asked, uint32_t most_boxes, uint32_t most_members, uint32_t depth)
{
    draw_boxes(asked, most_boxes, depth);
    draw_groups(asked, most_members);
    asked->heuristic = within(0, 2) ? within(0, HEURISTICS - 1) : RP_BEST;
    for (int i = 0; i < 2; i++) {
        switch (within(0, 23)) {
        case 1:
            mistake_places(asked);
            break;
        case 2:
            mistake_heuristic(asked);
            break;
        case 3:
            mistake_member(asked);
            break;
        case 4:
            mistake_exclusion(asked);
            break;
        }
    }
}

#endif
