/* Commands for sessions that are drawn. To be included once in a program. */
#ifndef SESSION_DRAWS_H
#define SESSION_DRAWS_H

#include "session_commands.h"
#include "told_draws.h"

enum { MOST_BOXES = 6, MOST_MEMBERS = PACKED - MOST_BOXES };

/* An index in a short list, or beyond it. */
static size_t draw_index(void)
{
    return within(0, 9) == 9 ? SIZE_MAX - within(0, 1) : within(0, 9);
}

static void draw_bin(command *it, uint32_t depth)
{
    it->size.width = within(2, SIDE);
    it->size.height = within(2, SIDE);
    it->size.depth = within(0, 11) == 11 ? 0 : within(1, depth);
}

static void draw_join(command *it)
{
    it->section = draw_index();
    it->start = within(0, 1) ? 0 : draw_index();
    it->stop = draw_index();
}

/* An axis, or now and then what is none. */
static void draw_growth(command *it)
{
    it->axis = within(0, 15) == 15 ? AXES : within(0, AXES - 1);
    it->pick = within(0, 3) == 3 ? TOO_MUCH : within(0, UINT16_MAX);
}

/* A box of few cells, or of none, at a place in the largest bin. */
static void draw_place(command *it, uint32_t depth)
{
    it->place.x = within(0, SIDE - 1);
    it->place.y = within(0, SIDE - 1);
    it->place.z = within(0, depth - 1);
    it->place.width = within(0, 3);
    it->place.height = within(0, 3);
    it->place.depth = depth > 1 ? within(0, 3) : 1;
}

/* One box, now and then without cells, and a heuristic or what is none here. */
static void draw_fitting(request *asked, uint32_t depth)
{
    static const uint32_t unknown[] = {HEURISTICS, RP_BEST};
    memset(asked, 0, sizeof *asked);
    asked->boxes[0].width = within(0, LONGEST);
    asked->boxes[0].height = within(0, LONGEST);
    asked->boxes[0].depth = depth > 1 ? within(0, depth) : 1;
    asked->boxes[0].group = within(0, 1);
    asked->heuristic = within(0, 11) == 11 ? unknown[within(0, 1)] : within(0, HEURISTICS - 1);
}

/* Some placements, which may be one twice, and now and then one that never is. */
static void draw_numbers(numbers *picks)
{
    picks->count = within(0, RELEASED);
    for (size_t i = 0; i < picks->count; i++)
        picks->list[i] = within(0, 15) == 15 ? NEVER_GIVEN : within(0, UINT16_MAX);
}

/* A command of this kind, for bins that are no deeper than this. */
static void draw_command(command *it, enum kind kind, uint32_t depth)
{
    uint32_t box_depth = depth < LONGEST ? depth : LONGEST - 1;
    memset(it, 0, sizeof *it);
    it->kind = kind;
    switch (kind) {
    case PACK:
        draw_boxes(&it->asked, MOST_BOXES, box_depth);
        if (within(0, 9) == 9)
            mistake_places(&it->asked);
        break;
    case PACK_COLLECTION:
    case PACK_FITTING:
        draw_collection(&it->asked, MOST_BOXES, MOST_MEMBERS, box_depth);
        break;
    case PACK_TOLD:
        draw_told(&it->asked, MOST_BOXES, MOST_MEMBERS, box_depth, ids, BINS);
        break;
    case RELEASE:
        it->pick = within(0, 15) == 15 ? NEVER_GIVEN : within(0, UINT16_MAX);
        break;
    case RELEASE_ALL:
        draw_numbers(&it->picks);
        break;
    case PLACE_ANYWHERE:
        draw_fitting(&it->asked, box_depth);
        break;
    default:
        it->bin = within(0, BINS - 1);
        if (kind == ADD_BIN)
            draw_bin(it, depth);
        if (kind == COALESCE)
            draw_join(it);
        if (kind == GROW_BIN)
            draw_growth(it);
        if (kind == PLACE_AT)
            draw_place(it, depth);
        if (kind == PLACE_BEST)
            draw_fitting(&it->asked, box_depth);
    }
}

#endif
