/* Boxes that stand in a bin, as they are drawn: parts that straight cuts leave, now and then a pinwheel among them, a box outside, or
   one that shares a cell with another. To be included once in a program. */
#ifndef STRAIGHT_CUTS_DRAWS_H
#define STRAIGHT_CUTS_DRAWS_H

#include "session_upkeep.h"

/* A bin is parted so many times at most. So many boxes there are at most: its parts, of which one may be a pinwheel of five, one
   without cells, and one that is wrong. */
enum { LAYOUT_CUTS = 5, STOOD = (1 << LAYOUT_CUTS) + 4 + 2 };

/* A bin, and the boxes that somebody put there. */
typedef struct layout {
    rp_bin bin;
    rp_section boxes[STOOD];
    size_t count;
} layout;

static void stand(layout *it, rp_section box)
{
    it->boxes[it->count++] = box;
}

/* What lies of a part between two places of each of two axes. */
static rp_section between(rp_section part, const int *axes, const uint32_t *from, const uint32_t *to)
{
    for (int i = 0; i < 2; i++) {
        *corner(&part, axes[i]) += from[i];
        *side(&part, axes[i]) = to[i] - from[i];
    }
    return part;
}

/* Four strips round a middle, in which a box may stand: each straight cut through the part goes through one of the strips. Both sides
   of the part have three cells or more. */
static void stand_pinwheel(layout *it, rp_section part, const int *axes)
{
    uint32_t width = *side(&part, axes[0]), height = *side(&part, axes[1]);
    uint32_t left = within(1, width - 2), right = within(left + 1, width - 1);
    uint32_t low = within(1, height - 2), high = within(low + 1, height - 1);
    stand(it, between(part, axes, (uint32_t[]){0, 0}, (uint32_t[]){right, low}));
    stand(it, between(part, axes, (uint32_t[]){right, 0}, (uint32_t[]){width, high}));
    stand(it, between(part, axes, (uint32_t[]){left, high}, (uint32_t[]){width, height}));
    stand(it, between(part, axes, (uint32_t[]){0, low}, (uint32_t[]){left, height}));
    if (within(0, 1))
        stand(it, between(part, axes, (uint32_t[]){left, low}, (uint32_t[]){right, high}));
}

/* Two axes on which a part with cells has three or more. Whether there are such. */
static int find_wide(rp_section part, int *axes)
{
    int found = 0;
    for (int axis = 0; axis < AXES && found < 2; axis++)
        if (*side(&part, axis) > 2)
            axes[found++] = axis;
    return found == 2 && cells_of(&part);
}

/* A part that is not cut: most often a box, else it is free; or the first that is wide enough is a pinwheel, if one is still to be
   drawn. */
static void stand_part(layout *it, rp_section part, int *pinwheels)
{
    int axes[2];
    if (*pinwheels > 0 && find_wide(part, axes)) {
        stand_pinwheel(it, part, axes);
        --*pinwheels;
    } else if (within(0, 3) > 0) {
        stand(it, part);
    }
}

/* Parts a box by straight cuts. */
static void stand_parts(layout *it, rp_section part, int most, int *pinwheels)
{
    int axis = (int)within(0, AXES - 1);
    uint32_t length = *side(&part, axis);
    if (most == 0 || length < 2) {
        stand_part(it, part, pinwheels);
        return;
    }
    uint32_t place = within(1, length - 1);
    rp_section lower = part, upper = part;
    *side(&lower, axis) = place;
    *corner(&upper, axis) += place;
    *side(&upper, axis) = length - place;
    stand_parts(it, lower, most - 1, pinwheels);
    stand_parts(it, upper, most - 1, pinwheels);
}

/* A box without cells, inside the bin. */
static void stand_empty(layout *it)
{
    int flat = (int)within(0, AXES - 1);
    rp_section box;
    for (int axis = 0; axis < AXES; axis++) {
        uint32_t length = *side_of(&it->bin, (uint32_t)axis);
        *corner(&box, axis) = within(0, length);
        *side(&box, axis) = axis == flat ? 0 : within(0, length - *corner(&box, axis));
    }
    stand(it, box);
}

/* A box that is not inside the bin, now and then so far out that its end would not be a number of 32 bits. */
static void stand_outside(layout *it)
{
    int out = (int)within(0, AXES - 1);
    rp_section box;
    for (int axis = 0; axis < AXES; axis++) {
        *corner(&box, axis) = within(0, *side_of(&it->bin, (uint32_t)axis));
        *side(&box, axis) = within(0, 3);
    }
    uint32_t length = *side_of(&it->bin, (uint32_t)out), own = *side(&box, out);
    *corner(&box, out) = within(0, 3) == 3 ? UINT32_MAX : (length > own ? length - own : 0) + within(1, 2);
    stand(it, box);
}

/* A box inside the bin that has a cell of one that stands there. Whether there is one with cells. */
static int stand_on_another(layout *it)
{
    rp_section other = it->boxes[it->count > 0 ? within(0, (uint32_t)it->count - 1) : 0], box;
    if (it->count == 0 || !cells_of(&other))
        return 0;
    for (int axis = 0; axis < AXES; axis++) {
        uint32_t cell = *corner(&other, axis) + within(0, *side(&other, axis) - 1);
        *corner(&box, axis) = within(0, cell);
        *side(&box, axis) = within(cell + 1, *side_of(&it->bin, (uint32_t)axis)) - *corner(&box, axis);
    }
    stand(it, box);
    return 1;
}

/* Puts the boxes into any order. */
static void shuffle(layout *it)
{
    for (size_t i = it->count; i > 1; i--) {
        size_t other = within(0, (uint32_t)i - 1);
        rp_section last = it->boxes[i - 1];
        it->boxes[i - 1] = it->boxes[other];
        it->boxes[other] = last;
    }
}

/* Boxes that stand in a bin. The status that has to be answered of them. */
static uint32_t draw_layout(layout *it)
{
    int wanted = within(0, 2) == 2, pinwheels = wanted;
    uint32_t right = RP_DONE;
    it->count = 0;
    it->bin.width = within(0, 19) == 19 ? 0 : within(1, SIDE);
    it->bin.height = within(1, SIDE);
    it->bin.depth = within(0, 1) ? 1 : within(1, SIDE);
    stand_parts(it, whole_of(&it->bin), (int)within(0, LAYOUT_CUTS), &pinwheels);
    if (pinwheels < wanted)
        right = RP_NO_PLAN;
    if (within(0, 3) == 3)
        stand_empty(it);
    uint32_t mistake = within(0, 5);
    if (mistake == 4)
        stand_outside(it);
    if (mistake == 4 || (mistake == 5 && stand_on_another(it)))
        right = RP_WRONG_BOXES;
    shuffle(it);
    return right;
}

#endif
