/* The calls that pack: what they are asked, and what their answers have to be. To be included once in a program. */
#ifndef PACKING_CALLS_H
#define PACKING_CALLS_H

#include "guarded.h"
#include "packing_rule.h"

enum { BOXES = 24, MEMBERS = ENTRIES - BOXES, EXCLUSIONS = 4, TOLD_STEPS = 8 };

/* What is packed: boxes alone, all of a collection, what fits of one, or what steps name of one. */
enum way { BOXES_ALONE, ALL_OF_IT, WHAT_FITS, AS_TOLD };

/* What is asked for: a collection, a heuristic or steps, and so many places for placements. A call that packs boxes alone is asked
   without members and exclusions, by volume. */
typedef struct request {
    rp_box boxes[BOXES];
    rp_member members[MEMBERS];
    rp_exclusion exclusions[EXCLUSIONS];
    size_t box_count, member_count, exclusion_count, places;
    uint32_t heuristic;
    rp_step steps[TOLD_STEPS];
    size_t step_count;
} request;

static size_t entries_of(const request *it)
{
    return it->box_count + it->member_count;
}

static rp_collection collection_of(const request *it)
{
    return (rp_collection){it->boxes, it->box_count, it->members, it->member_count, it->exclusions, it->exclusion_count};
}

/* Whether the heuristic of a request is there, or each of its steps. */
static int knows_heuristics(const request *it, enum way way)
{
    if (way != AS_TOLD)
        return it->heuristic < HEURISTICS || it->heuristic == RP_BEST;
    for (size_t i = 0; i < it->step_count; i++)
        if (it->steps[i].heuristic >= HEURISTICS)
            return 0;
    return 1;
}

/* Whether the boxes are there that members and steps name. */
static int knows_boxes(const request *it, enum way way)
{
    for (size_t i = 0; i < it->member_count; i++)
        if (it->members[i].index >= it->box_count)
            return 0;
    for (size_t i = 0; way == AS_TOLD && i < it->step_count; i++)
        if (it->steps[i].index >= entries_of(it))
            return 0;
    return 1;
}

/* The first thing that is wrong with a request, as a status, or RP_DONE. */
static uint32_t fault_of(const request *it, enum way way)
{
    if (it->places != entries_of(it))
        return RP_BAD_LENGTHS;
    if (!knows_heuristics(it, way))
        return RP_UNKNOWN_HEURISTIC;
    if (!knows_boxes(it, way))
        return RP_UNKNOWN_BOX;
    for (size_t i = 0; i < it->exclusion_count; i++)
        if (it->exclusions[i].one == it->exclusions[i].other)
            return RP_EQUAL_GROUPS;
    return RP_DONE;
}

/* The status of a request, and where it is done the packing; the bins are left as it leaves them. */
static uint32_t answer_of(const request *it, enum way way, shelf *bins, packing *best)
{
    rp_collection all = collection_of(it);
    uint32_t fault = fault_of(it, way);
    if (fault != RP_DONE)
        return fault;
    if (way == AS_TOLD)
        return follow_steps(best, &all, it->steps, it->step_count, bins);
    return follow_rule(best, &all, it->heuristic, bins, way == WHAT_FITS);
}

/* How many entries a packing leaves. */
static size_t left_by(const packing *it)
{
    size_t left = 0;
    for (size_t i = 0; i < it->count; i++)
        left += it->entries[i].is_left != 0;
    return left;
}

/* The collection as a call is given it: each list, and the collection itself, is guarded. A collection of boxes alone is made
   as the header says. */
static const rp_collection *guarded_collection(const request *it)
{
    const rp_box *boxes = guarded_copy(BOXES_LIST, it->boxes, it->box_count * sizeof *boxes);
    rp_collection all = RP_COLLECTION(boxes, it->box_count);
    if (entries_of(it) > it->box_count || it->exclusion_count > 0) {
        all.members = guarded_copy(MEMBERS_LIST, it->members, it->member_count * sizeof *it->members);
        all.member_count = it->member_count;
        all.exclusions = guarded_copy(EXCLUSIONS_LIST, it->exclusions, it->exclusion_count * sizeof *it->exclusions);
        all.exclusion_count = it->exclusion_count;
    }
    return guarded_copy(COLLECTION, &all, sizeof all);
}

/* What a call is given to read is as before. */
static void check_kept(const request *it, const rp_collection *all)
{
    check(!memcmp(all->boxes, it->boxes, it->box_count * sizeof *it->boxes), "boxes are changed");
    check(!memcmp(all->members, it->members, all->member_count * sizeof *it->members), "members are changed");
    check(!memcmp(all->exclusions, it->exclusions, all->exclusion_count * sizeof *it->exclusions), "exclusions are changed");
    check(all->box_count == it->box_count && all->member_count == it->member_count, "a collection is changed");
}

/* What a call wrote, where it says that it is done; else it wrote nothing. Of the whole packing it writes `chosen`, of this size. */
static void check_written(uint32_t status, const void *placements, size_t size, const void *chosen, size_t size_of_chosen)
{
    int is_written = status == RP_DONE;
    check(is_written || is_untouched(placements, size), "placements are written");
    check(is_written != is_untouched(chosen, size_of_chosen), "the heuristic is written, or is not");
}

/* The same of a packing as it is told: it writes which step is refused exactly where one is. */
static void check_told(uint32_t status, const void *placements, size_t size, const rp_refused *refused)
{
    check(status == RP_DONE || is_untouched(placements, size), "placements are written");
    check((status == RP_STEP_REFUSED) != is_untouched(refused, sizeof *refused), "a step that is refused is written, or is not");
}

static int are_same_steps(const rp_refused *one, const rp_refused *other)
{
    return one->step == other->step && one->fault == other->fault;
}

/* The steps as a call is given them. */
static const rp_step *guarded_steps(const request *it)
{
    return guarded_copy(STEPS_LIST, it->steps, it->step_count * sizeof *it->steps);
}

/* The group of a box, or of a member behind the boxes. */
static uint32_t group_of(const request *it, size_t i)
{
    return i < it->box_count ? it->boxes[i].group : it->members[i - it->box_count].group;
}

/* Groups are together, or left together, and those that are excluded are apart. The bins are those of the placements, as indices, and
   RP_LEFT_BIN of what is left. */
static void check_groups(const request *it, const uint32_t *bins)
{
    for (size_t i = 0; i < entries_of(it); i++) {
        for (size_t j = 0; j < entries_of(it); j++) {
            uint32_t one = group_of(it, i), other = group_of(it, j);
            check(one == 0 || one != other || bins[i] == bins[j], "a group is in two bins");
            for (size_t k = 0; k < it->exclusion_count && one > 0 && other > 0; k++)
                if (it->exclusions[k].one == one && it->exclusions[k].other == other)
                    check(bins[i] != bins[j] || bins[i] == RP_LEFT_BIN, "excluded groups are in one bin");
        }
    }
}

#endif
