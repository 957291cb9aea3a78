/* The account that is kept of a session: what there has to be in it by the answers so far, cell by cell. To be included once
   in a program. */
#ifndef SESSION_ACCOUNT_H
#define SESSION_ACCOUNT_H

#include "packing_calls.h"

/* So many commands are given to a session, and each packs so many boxes and members at most. */
enum { COMMANDS = 30, PACKED = 10, STANDING = COMMANDS * PACKED };

/* A box that is packed leaves at most three free sections in place of one, and its release one more; a bin that grows has one
   more. A box that is placed leaves at most six, and no other box comes with its command. Behind the list there is room to see
   that nothing is written past it. */
typedef char there_is_room_for_sections[1 + 3 * STANDING + 2 <= SECTIONS ? 1 : -1];

/* The ids of the bins, in no order. */
static const uint32_t ids[BINS] = {7, 0, 4294967295u, 12};

/* An outstanding placement, its box, and the index of the box in its call. */
typedef struct standing {
    rp_outstanding at;
    rp_box box;
    uint32_t index;
} standing;

/* The placements are in the order of their numbers. */
typedef struct account {
    int has_bin[BINS], was_coalesced[BINS];
    rp_bin bins[BINS];
    standing placed[STANDING];
    size_t count;
    uint64_t next;
    rp_stats stats[BINS];
    sections free[BINS];
} account;

/* What is there to begin with: no bins. */
static void open_account(account *now)
{
    memset(now, 0, sizeof *now);
    memset(now->stats, UNTOUCHED, sizeof now->stats);
}

static size_t index_of(uint32_t bin)
{
    size_t i = 0;
    while (i < BINS && ids[i] != bin)
        i++;
    return i;
}

/* The place in the account of the outstanding placement of this number, or past its end. */
static size_t position_of(const account *now, uint64_t number)
{
    size_t i = 0;
    while (i < now->count && now->placed[i].at.number != number)
        i++;
    return i;
}

static rp_section section_of(const standing *it)
{
    return section_at(&it->at.placement, &it->box);
}

/* Whether a box stands in the bin of this index. */
static int is_in_use(const account *now, size_t bin)
{
    for (size_t i = 0; i < now->count; i++)
        if (now->placed[i].at.placement.bin == ids[bin])
            return 1;
    return 0;
}

static int are_same(const rp_section *one, const rp_section *other)
{
    return !memcmp(one, other, sizeof *one);
}

/* The bins as the packing rule sees them. */
static void shelve(shelf *bins, const account *now)
{
    bins->count = 0;
    for (size_t i = 0; i < BINS; i++) {
        if (!now->has_bin[i])
            continue;
        bins->ids[bins->count] = ids[i];
        bins->sizes[bins->count] = now->bins[i];
        copy_sections(&bins->free[bins->count++], &now->free[i]);
    }
}

/* The free sections of a bin on a shelf. */
static const sections *free_on(const shelf *bins, uint32_t id)
{
    size_t i = 0;
    while (bins->ids[i] != id)
        i++;
    return &bins->free[i];
}

/* Each cell of each bin is in exactly one of these free sections or outstanding boxes, which are inside their bins. */
static void check_cells(const account *now, const sections *free)
{
    static cells filled[BINS];
    uint64_t count[BINS] = {0};
    memset(filled, 0, sizeof filled);
    for (size_t i = 0; i < now->count; i++) {
        size_t bin = index_of(now->placed[i].at.placement.bin);
        rp_section it = section_of(&now->placed[i]);
        check(bin < BINS && now->has_bin[bin], "a box is in no bin");
        count[bin] += fill(filled[bin], &now->bins[bin], &it);
    }
    for (size_t i = 0; i < BINS; i++) {
        rp_section whole = whole_of(&now->bins[i]);
        for (size_t j = 0; j < free[i].count; j++)
            count[i] += fill(filled[i], &now->bins[i], &free[i].list[j]);
        check(count[i] == cells_of(&whole), "a cell is neither free nor placed");
    }
}

/* Joins the second section to the first where they share a whole face, and says whether they do. */
static int join(rp_section *one, rp_section *other)
{
    for (int axis = 0; axis < AXES; axis++) {
        int alike = 1;
        for (int i = 0; i < AXES; i++)
            alike &= i == axis || (*corner(one, i) == *corner(other, i) && *side(one, i) == *side(other, i));
        if (alike && (end(one, axis) == *corner(other, axis) || end(other, axis) == *corner(one, axis))) {
            if (*corner(other, axis) < *corner(one, axis))
                *corner(one, axis) = *corner(other, axis);
            *side(one, axis) += *side(other, axis);
            return 1;
        }
    }
    return 0;
}

/* Joins the section of this index with those of the range that share a whole face with it, the first of them first. */
static void join_range(sections *free, size_t index, size_t start, size_t stop)
{
    if (stop > free->count)
        stop = free->count;
    for (size_t i = start; index < free->count && i < stop;) {
        if (i == index || !join(&free->list[index], &free->list[i])) {
            i++;
            continue;
        }
        take_section(free, i);
        stop--;
        index -= i < index;
        i = start;
    }
}

/* Whether two free sections of a bin share a whole face. */
static int share_a_face(const sections *free)
{
    for (size_t i = 0; i < free->count; i++) {
        for (size_t j = 0; j < free->count; j++) {
            rp_section one = free->list[i], other = free->list[j];
            if (i != j && join(&one, &other))
                return 1;
        }
    }
    return 0;
}

#endif
