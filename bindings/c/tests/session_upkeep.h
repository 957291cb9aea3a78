/* What becomes of the account where a bin is made whole again, is taken out or grows, and where a box is placed at a place of the
   caller's choice. To be included once in a program. */
#ifndef SESSION_UPKEEP_H
#define SESSION_UPKEEP_H

#include "session_account.h"

/* By as much a bin with cells never grows. */
static const uint64_t TOO_MUCH = UINT64_MAX;

static uint32_t *side_of(rp_bin *size, uint32_t axis)
{
    return axis == 0 ? &size->width : axis == 1 ? &size->height : &size->depth;
}

/* How many cells a bin grows by: no more than keep it small enough for its cells to be filled, or one too many for 32 bits. */
static uint32_t growth(const rp_bin *size, uint32_t axis, uint64_t pick)
{
    rp_bin it = *size;
    uint32_t long_by = *side_of(&it, axis);
    if (pick == TOO_MUCH && long_by > 0)
        return UINT32_MAX - long_by + 1;
    return (uint32_t)(pick % (SIDE + 1 - long_by));
}

/* Whether the box is a part of the section. */
static int is_part_of(rp_section box, rp_section section)
{
    for (int axis = 0; axis < AXES; axis++)
        if (*corner(&box, axis) < *corner(&section, axis) || end(&box, axis) > end(&section, axis))
            return 0;
    return 1;
}

/* The index of the first section that the box is a part of, or past the end of the list. */
static size_t first_around(const sections *free, const rp_section *box)
{
    size_t i = 0;
    while (i < free->count && !is_part_of(*box, free->list[i]))
        i++;
    return i;
}

static uint32_t status_of_removing(const account *now, size_t bin)
{
    if (!now->has_bin[bin])
        return RP_UNKNOWN_BIN;
    return is_in_use(now, bin) ? RP_BIN_IN_USE : RP_DONE;
}

static uint32_t status_of_growing(const account *now, size_t bin, uint32_t axis, uint32_t by)
{
    rp_bin size = now->bins[bin];
    if (axis >= AXES)
        return RP_UNKNOWN_AXIS;
    if (!now->has_bin[bin])
        return RP_UNKNOWN_BIN;
    return (uint64_t)*side_of(&size, axis) + by > UINT32_MAX ? RP_TOO_LARGE : RP_DONE;
}

static uint32_t status_of_placing(const account *now, size_t bin, const rp_section *place)
{
    if (!now->has_bin[bin])
        return RP_UNKNOWN_BIN;
    return first_around(&now->free[bin], place) < now->free[bin].count ? RP_DONE : RP_NOT_FREE;
}

/* One free section, which is all of the bin. */
static void make_whole(sections *free, const rp_bin *size)
{
    rp_section whole = whole_of(size);
    free->count = 0;
    add_section(free, &whole);
}

static void add_with_cells(sections *free, const rp_section *it)
{
    if (has_cells(it))
        add_section(free, it);
}

/* The part of a bin at its old end and beyond it. */
static void add_what_is_new(sections *free, const rp_bin *old, uint32_t axis, uint32_t by)
{
    rp_section new_part = whole_of(old);
    *corner(&new_part, (int)axis) = *side(&new_part, (int)axis);
    *side(&new_part, (int)axis) = by;
    add_with_cells(free, &new_part);
}

/* The first section that the box is a part of is gone. What is left of it is cut axis by axis: first before the box, then behind
   it, and what is beside the box on one axis goes no further on the next. */
static void cut_round(sections *free, const rp_section *box)
{
    size_t first = first_around(free, box);
    rp_section rest = take_section(free, first), place = *box;
    for (int axis = 0; axis < AXES; axis++) {
        rp_section before = rest, behind = rest;
        *side(&before, axis) = *corner(&place, axis) - *corner(&rest, axis);
        *corner(&behind, axis) = end(&place, axis);
        *side(&behind, axis) = end(&rest, axis) - end(&place, axis);
        add_with_cells(free, &before);
        add_with_cells(free, &behind);
        *corner(&rest, axis) = *corner(&place, axis);
        *side(&rest, axis) = *side(&place, axis);
    }
}

/* Strikes a placement from the account. */
static void strike(account *now, size_t position)
{
    now->count--;
    memmove(&now->placed[position], &now->placed[position + 1], (now->count - position) * sizeof *now->placed);
}

/* Strikes all placements in a bin, which then is as a new one. */
static void empty_bin(account *now, size_t bin)
{
    for (size_t i = now->count; i-- > 0;)
        if (now->placed[i].at.placement.bin == ids[bin])
            strike(now, i);
    now->was_coalesced[bin] = 0;
}

/* A box that was placed stands last, under the next number. */
static void take_up_placing(account *now, size_t bin, const rp_section *it, uint64_t number)
{
    check(number == now->next, "the number of a box that is placed");
    now->placed[now->count++] = (standing){{number, {ids[bin], it->x, it->y, it->z}}, {it->width, it->height, it->depth, 0}, 0};
    now->next++;
}

#endif
