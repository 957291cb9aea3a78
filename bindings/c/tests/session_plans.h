/* Cutting plans by the words of the header, for the harness of sessions. To be included once in a program. */
#ifndef SESSION_PLANS_H
#define SESSION_PLANS_H

#include "session_account.h"

/* Each box has one leaf, and there is one cut less than there are leaves. */
enum { FILLING = SECTIONS + STANDING, STEPS = 2 * FILLING };

/* The boxes with cells of a bin: its free sections, and what is placed in it. */
typedef struct filling {
    rp_section boxes[FILLING];
    size_t count;
} filling;

/* A plan of the harness's own. */
typedef struct plan {
    rp_cut_step steps[STEPS];
    size_t count;
} plan;

static void add_box(filling *all, rp_section it)
{
    if (cells_of(&it))
        all->boxes[all->count++] = it;
}

static void gather(filling *all, const account *now, const sections *free, size_t bin)
{
    all->count = 0;
    for (size_t i = 0; i < free->count; i++)
        add_box(all, free->list[i]);
    for (size_t i = 0; i < now->count; i++)
        if (now->placed[i].at.placement.bin == ids[bin])
            add_box(all, section_of(&now->placed[i]));
}

/* Whether a box is in a part. Cuts leave boxes whole, so it is if its corner is. */
static int is_in(rp_section *part, rp_section *box)
{
    for (int axis = 0; axis < AXES; axis++)
        if (*corner(box, axis) < *corner(part, axis) || *corner(box, axis) >= end(part, axis))
            return 0;
    return 1;
}

/* Whether a straight cut through the part leaves each box of it whole. */
static int is_open(rp_section *part, filling *all, int axis, uint32_t place)
{
    for (size_t i = 0; i < all->count; i++) {
        rp_section *box = &all->boxes[i];
        if (is_in(part, box) && *corner(box, axis) < place && place < end(box, axis))
            return 0;
    }
    return 1;
}

/* Whether a part has an open plane, and the first one. */
static int find_plane(rp_section *part, filling *all, rp_cut_step *step)
{
    for (int axis = 0; axis < AXES; axis++) {
        for (uint32_t place = *corner(part, axis) + 1; place < end(part, axis); place++) {
            if (is_open(part, all, axis, place)) {
                *step = (rp_cut_step){(uint32_t)axis, place};
                return 1;
            }
        }
    }
    return 0;
}

/* A part that is not cut is one of the boxes, or has no cells. */
static void check_leaf(rp_section *part, filling *all)
{
    int found = !cells_of(part);
    for (size_t i = 0; i < all->count; i++)
        found |= are_same(part, &all->boxes[i]);
    check(found, "a part that is not cut is no box");
}

/* Adds the plan of a part, and says whether there is one: the first open plane, and then both parts. A plan that is read is to
   be this one, so its steps are one tree over the bin, and its leaves the boxes. */
static int add_plan(plan *own, rp_section part, filling *all)
{
    size_t boxes = 0;
    for (size_t i = 0; i < all->count; i++)
        boxes += (size_t)is_in(&part, &all->boxes[i]);
    rp_cut_step *step = &own->steps[own->count++];
    if (boxes < 2) {
        *step = (rp_cut_step){RP_LEAF, 0};
        check_leaf(&part, all);
        return 1;
    }
    if (!find_plane(&part, all, step))
        return 0;
    rp_section lower = part, upper = part;
    int axis = (int)step->axis;
    *side(&lower, axis) = step->place - *corner(&part, axis);
    *corner(&upper, axis) = step->place;
    *side(&upper, axis) = end(&part, axis) - step->place;
    return add_plan(own, lower, all) && add_plan(own, upper, all);
}

/* The plan of a bin, and whether there is one. */
static int make_plan(plan *own, const account *now, const sections *free, size_t bin)
{
    static filling all;
    gather(&all, now, free, bin);
    own->count = 0;
    return add_plan(own, whole_of(&now->bins[bin]), &all);
}

#endif
