/* What becomes of the account where a box goes where it fits best, where placements are released together, and where a bin is
   cut anew. To be included once in a program. */
#ifndef SESSION_PLACING_H
#define SESSION_PLACING_H

#include "session_plans.h"
#include "session_upkeep.h"

/* So many numbers are released together at most. */
enum { RELEASED = 4 };

/* Numbers that are released together. */
typedef struct numbers {
    uint64_t list[RELEASED];
    size_t count;
} numbers;

/* Where a box fits best: its bin, or BINS where no free section holds it; the index of the section; and what is left of that on
   its tightest side. */
typedef struct best_place {
    size_t bin, section;
    uint32_t rest;
} best_place;

/* The least side, of those along which the bin has more than one cell. */
static uint32_t least_side(rp_bin size, rp_section sides)
{
    uint32_t least = UINT32_MAX;
    for (int axis = 0; axis < AXES; axis++)
        if (*side_of(&size, (uint32_t)axis) > 1 && *side(&sides, axis) < least)
            least = *side(&sides, axis);
    return least;
}

/* Looks for a better place in a bin: of equal ones the newest section is the best, and the bin of the least id. */
static void look_into(const account *now, size_t bin, const rp_box *box, best_place *best)
{
    for (size_t i = now->free[bin].count; i-- > 0;) {
        rp_section it = now->free[bin].list[i];
        if (!holds(&it, box))
            continue;
        it.width -= box->width;
        it.height -= box->height;
        it.depth -= box->depth;
        uint32_t rest = least_side(now->bins[bin], it);
        if (best->bin == BINS || rest < best->rest || (rest == best->rest && ids[bin] < ids[best->bin]))
            *best = (best_place){bin, i, rest};
    }
}

/* Where a box fits best, in this bin or, where it is BINS, in any. */
static best_place place_that_fits(const account *now, size_t bin, const rp_box *box)
{
    best_place best = {BINS, 0, 0};
    for (size_t i = 0; i < BINS; i++)
        if (bin == BINS || bin == i)
            look_into(now, i, box, &best);
    return best;
}

static uint32_t status_of_fitting(const account *now, size_t bin, const request *asked)
{
    if (asked->heuristic >= HEURISTICS)
        return RP_UNKNOWN_HEURISTIC;
    if (bin < BINS && !now->has_bin[bin])
        return RP_UNKNOWN_BIN;
    return place_that_fits(now, bin, &asked->boxes[0]).bin < BINS ? RP_DONE : RP_NOT_ENOUGH_SPACE;
}

/* The box goes into that section, as a packing places it where that is the newest. */
static void fit_in(sections *free, const best_place *best, const request *asked)
{
    rp_section at, section = take_section(free, best->section);
    add_section(free, &section);
    place_box(free, &asked->boxes[0], asked->heuristic, &at);
}

/* A box that was placed where it fits best stands last, under the next number. */
static void take_up_fitting(account *now, const best_place *best, const rp_box *box, const rp_outstanding *at)
{
    const rp_section *section = &now->free[best->bin].list[best->section];
    const rp_placement *place = &at->placement;
    check(at->number == now->next && place->bin == ids[best->bin], "the number or the bin of a box that fits best");
    check(place->x == section->x && place->y == section->y && place->z == section->z, "a box is not where it fits best");
    now->placed[now->count++] = (standing){*at, *box, 0};
    now->next++;
}

static uint32_t status_of_releasing(const account *now, const numbers *all)
{
    for (size_t i = 0; i < all->count; i++) {
        if (position_of(now, all->list[i]) == now->count)
            return RP_UNKNOWN_PLACEMENT;
        for (size_t j = 0; j < i; j++)
            if (all->list[i] == all->list[j])
                return RP_UNKNOWN_PLACEMENT;
    }
    return RP_DONE;
}

/* What is released is the newest section of its bin, in the order of the list. */
static void free_all(sections *free, const account *now, const numbers *all)
{
    for (size_t i = 0; i < all->count; i++) {
        const standing *released = &now->placed[position_of(now, all->list[i])];
        rp_section section = section_of(released);
        add_with_cells(&free[index_of(released->at.placement.bin)], &section);
    }
}

/* Whether straight cuts part the boxes in a part, which need not fill it. */
static int are_parted(rp_section part, filling *boxes)
{
    size_t count = 0;
    rp_cut_step step;
    for (size_t i = 0; i < boxes->count; i++)
        count += (size_t)is_in(&part, &boxes->boxes[i]);
    if (count < 2)
        return 1;
    if (!find_plane(&part, boxes, &step))
        return 0;
    rp_section lower = part, upper = part;
    int axis = (int)step.axis;
    *side(&lower, axis) = step.place - *corner(&part, axis);
    *corner(&upper, axis) = step.place;
    *side(&upper, axis) = end(&part, axis) - step.place;
    return are_parted(lower, boxes) && are_parted(upper, boxes);
}

static uint32_t status_of_recutting(const account *now, size_t bin)
{
    static const sections none;
    static filling boxes;
    if (!now->has_bin[bin])
        return RP_UNKNOWN_BIN;
    gather(&boxes, now, &none, bin);
    return are_parted(whole_of(&now->bins[bin]), &boxes) ? RP_DONE : RP_NOT_FROM_CUTS;
}

/* The free sections of a bin that was cut anew: straight cuts leave them and the boxes, each has cells, and they stand by
   falling least side. Without boxes there is one. */
static void check_cut_anew(const account *now, size_t bin, const sections *free)
{
    static plan own;
    uint64_t cells = 0;
    check(make_plan(&own, now, free, bin), "a bin that was cut anew is from no cuts");
    for (size_t i = 0; i < free->count; i++) {
        const rp_section *it = &free->list[i], *before = &free->list[i > 0 ? i - 1 : 0];
        uint32_t least = least_side(now->bins[bin], *it), least_before = least_side(now->bins[bin], *before);
        check(has_cells(it), "a section without cells was cut");
        check(least <= least_before, "sections are in another order");
        cells += cells_of(it);
    }
    rp_section whole = whole_of(&now->bins[bin]);
    check(cells < cells_of(&whole) || free->count <= 1, "a bin without boxes has several sections");
}

#endif
