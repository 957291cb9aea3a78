/* The packing rule, in the words of the header and of docs/COMMANDS.md: what a packing has to answer where all memory is there.
   It is written to be read, and is slow. To be included once in a program. */
#ifndef PACKING_RULE_H
#define PACKING_RULE_H

#include "geometry.h"

/* There are so many bins, boxes and members at most, and free sections in a bin. */
enum { BINS = 4, ENTRIES = 32, SECTIONS = 1024 };

enum { HEURISTICS = 8, CUTS = 6 };

/* What a size is rated by. */
typedef unsigned __int128 rate;

/* The free sections of a bin, the newest last. */
typedef struct sections {
    rp_section list[SECTIONS];
    size_t count;
} sections;

/* The bins of a packing, each with an id, in any order. */
typedef struct shelf {
    uint32_t ids[BINS];
    rp_bin sizes[BINS];
    sections free[BINS];
    size_t count;
} shelf;

/* A box in one of its groups, and the rate of that group. It is placed, or left, or still to come. Once it is placed: its bin on the
   shelf, where it stands there, and how many entries were placed before it. */
typedef struct entry {
    rp_box box;
    rate key;
    int is_placed, is_left;
    size_t bin;
    rp_section at;
    uint64_t turn;
} entry;

/* A packing of entries, first those of the boxes and then those of the members, by a heuristic. As it is told, also the first step
   that cannot be done. */
typedef struct packing {
    entry entries[ENTRIES];
    size_t count;
    uint32_t heuristic;
    uint64_t placed;
    rp_refused refused;
} packing;

/* A cut round a box at the corner of a section: the pieces right of the box, above it and behind it, and their rates. */
typedef struct cut {
    rp_section pieces[AXES];
    rate rates[AXES];
} cut;

static rate in_turn(uint32_t first, uint32_t second, uint32_t third)
{
    return ((rate)first << 64) + ((rate)second << 32) + third;
}

static uint32_t lesser(uint32_t one, uint32_t other)
{
    return one < other ? one : other;
}

static uint32_t greater(uint32_t one, uint32_t other)
{
    return one > other ? one : other;
}

static rate rate_of(uint32_t heuristic, uint32_t w, uint32_t h, uint32_t d)
{
    uint32_t shortest = lesser(w, lesser(h, d)), longest = greater(w, greater(h, d));
    uint32_t middle = greater(lesser(w, h), lesser(greater(w, h), d));
    switch (heuristic) {
    case RP_HEIGHT:
        return in_turn(h, w, d);
    case RP_WIDTH:
        return in_turn(w, h, d);
    case RP_DEPTH:
        return in_turn(d, w, h);
    case RP_SIDE_SUM:
        return (rate)w + h + d;
    case RP_LONGEST_SIDE:
        return in_turn(longest, middle, shortest);
    case RP_SHORTEST_SIDE:
        return in_turn(shortest, middle, longest);
    case RP_SIDE_AREA:
        return (rate)h * d;
    default:
        return (rate)w * h * d;
    }
}

static int has_cells(const rp_section *it)
{
    return it->width > 0 && it->height > 0 && it->depth > 0;
}

static int holds(const rp_section *section, const rp_box *box)
{
    return box->width <= section->width && box->height <= section->height && box->depth <= section->depth;
}

static void copy_sections(sections *to, const sections *from)
{
    to->count = from->count;
    memcpy(to->list, from->list, from->count * sizeof *from->list);
}

static void copy_shelf(shelf *to, const shelf *from)
{
    to->count = from->count;
    memcpy(to->ids, from->ids, sizeof to->ids);
    memcpy(to->sizes, from->sizes, sizeof to->sizes);
    for (size_t i = 0; i < from->count; i++)
        copy_sections(&to->free[i], &from->free[i]);
}

static void add_section(sections *free, const rp_section *it)
{
    check(free->count < SECTIONS, "the rule has no room for a section");
    free->list[free->count++] = *it;
}

/* Takes a section out of the list. */
static rp_section take_section(sections *free, size_t index)
{
    rp_section taken = free->list[index];
    free->count--;
    memmove(&free->list[index], &free->list[index + 1], (free->count - index) * sizeof *free->list);
    return taken;
}

/* The cut in which the axes have these turns: what is left beyond the box on one axis is cut off across all that the axes of
   earlier turns have left. */
static cut make_cut(const int *turns, rp_section section, rp_section placed, uint32_t heuristic)
{
    cut made;
    for (int axis = 0; axis < AXES; axis++) {
        rp_section *piece = &made.pieces[axis];
        *piece = section;
        *corner(piece, axis) = end(&placed, axis);
        *side(piece, axis) = end(&section, axis) - end(&placed, axis);
        for (int other = 0; other < AXES; other++)
            if (turns[other] < turns[axis])
                *side(piece, other) = *side(&placed, other);
        made.rates[axis] = rate_of(heuristic, piece->width, piece->height, piece->depth);
    }
    return made;
}

/* The piece of this rank, the smallest first; of equal ones the one behind before the one above, and that before the one on the
   right. */
static int ranked(const cut *it, int rank)
{
    for (int axis = 0;; axis++) {
        int before = 0;
        for (int other = 0; other < AXES; other++)
            before += it->rates[other] < it->rates[axis] || (it->rates[other] == it->rates[axis] && other > axis);
        if (before == rank)
            return axis;
    }
}

/* The smallest piece decides, and at a tie the second smallest: the smaller it is, the better is the cut. */
static int is_better_cut(const cut *one, const cut *other)
{
    for (int rank = 0; rank < AXES - 1; rank++) {
        rate a = one->rates[ranked(one, rank)], b = other->rates[ranked(other, rank)];
        if (a != b)
            return a < b;
    }
    return 0;
}

/* The best cut, of equal ones the last in this order. */
static cut best_cut(rp_section section, rp_section placed, uint32_t heuristic)
{
    static const int turns[CUTS][AXES] = {{0, 1, 2}, {1, 0, 2}, {0, 2, 1}, {1, 2, 0}, {2, 0, 1}, {2, 1, 0}};
    cut best = make_cut(turns[0], section, placed, heuristic);
    for (int i = 1; i < CUTS; i++) {
        cut next = make_cut(turns[i], section, placed, heuristic);
        if (!is_better_cut(&best, &next))
            best = next;
    }
    return best;
}

/* Places a box at the corner of the newest free section that holds it, and cuts what is left of that: pieces with cells go to
   the end of the list, the largest first. Whether there is such a section. */
static int place_box(sections *free, const rp_box *box, uint32_t heuristic, rp_section *at)
{
    size_t index = free->count;
    while (index > 0 && !holds(&free->list[index - 1], box))
        index--;
    if (index == 0)
        return 0;
    rp_section section = take_section(free, index - 1);
    *at = (rp_section){section.x, section.y, section.z, box->width, box->height, box->depth};
    cut best = best_cut(section, *at, heuristic);
    for (int rank = AXES - 1; rank >= 0; rank--) {
        const rp_section *piece = &best.pieces[ranked(&best, rank)];
        if (has_cells(piece))
            add_section(free, piece);
    }
    return 1;
}

static int is_of_group(const packing *now, size_t first, size_t i)
{
    uint32_t group = now->entries[first].box.group;
    return i == first || (group > 0 && now->entries[i].box.group == group);
}

/* Places all entries of a group in a bin, or none. Whether that is done. */
static int place_group(packing *now, size_t first, shelf *bins, size_t bin)
{
    static sections free;
    uint64_t turn = now->placed;
    copy_sections(&free, &bins->free[bin]);
    for (size_t i = first; i < now->count; i++) {
        entry *it = &now->entries[i];
        if (!is_of_group(now, first, i))
            continue;
        if (!place_box(&free, &it->box, now->heuristic, &it->at))
            return 0;
        it->bin = bin;
        it->turn = turn++;
    }
    for (size_t i = first; i < now->count; i++)
        now->entries[i].is_placed |= is_of_group(now, first, i);
    copy_sections(&bins->free[bin], &free);
    now->placed = turn;
    return 1;
}

/* Whether two groups are excluded. Group 0 has no boxes: each of its boxes is a group of its own, which nothing excludes. */
static int are_excluded(const rp_collection *all, uint32_t one, uint32_t other)
{
    for (size_t i = 0; i < all->exclusion_count; i++) {
        const rp_exclusion *pair = &all->exclusions[i];
        if ((pair->one == one && pair->other == other) || (pair->one == other && pair->other == one))
            return one > 0 && other > 0;
    }
    return 0;
}

static int is_excluded_from(const rp_collection *all, const packing *now, size_t first, size_t bin)
{
    for (size_t i = 0; i < now->count; i++) {
        const entry *it = &now->entries[i];
        if (it->is_placed && it->bin == bin && are_excluded(all, it->box.group, now->entries[first].box.group))
            return 1;
    }
    return 0;
}

/* The bin that is tried next: of those that were not, the one with the smallest rate, and of equal ones the one with the least
   id. */
static size_t next_bin(const shelf *bins, const int *tried, uint32_t heuristic)
{
    size_t next = BINS;
    rate least = 0;
    for (size_t i = 0; i < bins->count; i++) {
        const rp_bin *size = &bins->sizes[i];
        rate now = rate_of(heuristic, size->width, size->height, size->depth);
        if (!tried[i] && (next == BINS || now < least || (now == least && bins->ids[i] < bins->ids[next]))) {
            next = i;
            least = now;
        }
    }
    return next;
}

/* The first entry of the group that comes next, or ENTRIES: of those that are neither placed nor left, the one with the greatest
   rate. At equal rates boxes that are alone go by their indices, and before the groups, which go by their numbers. */
static size_t next_group(const packing *now)
{
    size_t next = ENTRIES;
    for (size_t i = 0; i < now->count; i++) {
        const entry *it = &now->entries[i], *best = &now->entries[next % ENTRIES];
        int is_first = next == ENTRIES || it->key > best->key;
        int is_to_come = !it->is_placed && !it->is_left;
        if (is_to_come && (is_first || (it->key == best->key && it->box.group < best->box.group)))
            next = i;
    }
    return next;
}

/* The entries of a collection, none of them placed. */
static void begin_packing(packing *now, const rp_collection *all, uint32_t heuristic)
{
    memset(now, 0, sizeof *now);
    now->heuristic = heuristic;
    now->count = all->box_count + all->member_count;
    for (size_t i = 0; i < now->count; i++) {
        const rp_member *member = i < all->box_count ? NULL : &all->members[i - all->box_count];
        now->entries[i].box = all->boxes[member ? member->index : i];
        if (member)
            now->entries[i].box.group = member->group;
    }
    for (size_t i = 0; i < now->count; i++) {
        for (size_t j = 0; j < now->count; j++) {
            const rp_box *box = &now->entries[j].box;
            if (is_of_group(now, i, j))
                now->entries[i].key += rate_of(heuristic, box->width, box->height, box->depth);
        }
    }
}

/* Places a group in the first bin that takes all of it. Whether there is one. */
static int find_bin(packing *now, const rp_collection *all, size_t first, shelf *bins)
{
    int tried[BINS] = {0};
    for (size_t bin; (bin = next_bin(bins, tried, now->heuristic)) < BINS; tried[bin] = 1)
        if (!is_excluded_from(all, now, first, bin) && place_group(now, first, bins, bin))
            return 1;
    return 0;
}

static void leave_group(packing *now, size_t first)
{
    for (size_t i = first; i < now->count; i++)
        now->entries[i].is_left |= is_of_group(now, first, i);
}

/* Packs the collection into the bins by one heuristic: all of it, or what fits, and then a group that no bin takes is left. Whether
   that is done; if not, some groups may be placed. */
static int pack_by(packing *now, const rp_collection *all, uint32_t heuristic, shelf *bins, int what_fits)
{
    begin_packing(now, all, heuristic);
    for (size_t first; (first = next_group(now)) < ENTRIES;) {
        if (find_bin(now, all, first, bins))
            continue;
        if (!what_fits)
            return 0;
        leave_group(now, first);
    }
    return 1;
}

static rate cells_in(const rp_box *it)
{
    return rate_of(RP_VOLUME, it->width, it->height, it->depth);
}

/* What packings are compared by: how many cells are left, how many bins they put cells into, and how many into the last of these by
   its id. */
typedef struct use {
    rate left;
    size_t used;
    rate last;
} use;

static use use_of(const packing *now, const shelf *bins)
{
    use sum = {0, 0, 0};
    size_t at = BINS;
    for (size_t i = 0; i < now->count; i++)
        if (now->entries[i].is_left)
            sum.left += cells_in(&now->entries[i].box);
    for (size_t i = 0; i < bins->count; i++) {
        rate filled = 0;
        for (size_t j = 0; j < now->count; j++)
            if (now->entries[j].is_placed && now->entries[j].bin == i)
                filled += cells_in(&now->entries[j].box);
        sum.used += filled > 0;
        if (filled > 0 && (at == BINS || bins->ids[i] > bins->ids[at])) {
            at = i;
            sum.last = filled;
        }
    }
    return sum;
}

/* The first in which they differ decides: the fewer, the better. */
static int is_better_use(const use *one, const use *other)
{
    if (one->left != other->left)
        return one->left < other->left;
    return one->used != other->used ? one->used < other->used : one->last < other->last;
}

/* What a packing of all, or of what fits, by the heuristic of this number, or by the best one, has to answer. Where it is done, the
   bins are left as it leaves them; otherwise they are as they were. */
static uint32_t follow_rule(packing *best, const rp_collection *all, uint32_t heuristic, shelf *bins, int what_fits)
{
    static shelf after, kept;
    static packing now;
    use fewest = {0, 0, 0};
    int is_done = 0;
    for (uint32_t i = 0; i < HEURISTICS; i++) {
        copy_shelf(&after, bins);
        if ((heuristic != i && heuristic != RP_BEST) || !pack_by(&now, all, i, &after, what_fits))
            continue;
        use next = use_of(&now, &after);
        if (!is_done || is_better_use(&next, &fewest)) {
            is_done = 1;
            fewest = next;
            *best = now;
            copy_shelf(&kept, &after);
        }
    }
    if (!is_done)
        return RP_NOT_ENOUGH_SPACE;
    copy_shelf(bins, &kept);
    return RP_DONE;
}

/* Does a step of a packing as it is told: the whole group of an entry goes into the bin of this id. Why it cannot be done, or 0. */
static uint32_t do_step(packing *now, const rp_collection *all, const rp_step *step, shelf *bins)
{
    size_t first = 0, bin = 0;
    while (!is_of_group(now, step->index, first))
        first++;
    while (bin < bins->count && bins->ids[bin] != step->bin)
        bin++;
    if (bin == bins->count)
        return RP_STEP_UNKNOWN_BIN;
    if (now->entries[first].is_placed)
        return RP_STEP_NAMED_TWICE;
    if (is_excluded_from(all, now, first, bin))
        return RP_STEP_EXCLUDED;
    now->heuristic = step->heuristic;
    return place_group(now, first, bins, bin) ? 0 : RP_STEP_NO_ROOM;
}

/* Packs as it is told; groups that no step names are left. Where it is not done the bins are as they were. */
static uint32_t follow_steps(packing *now, const rp_collection *all, const rp_step *steps, size_t count, shelf *bins)
{
    static shelf after;
    copy_shelf(&after, bins);
    begin_packing(now, all, RP_VOLUME);
    for (size_t i = 0; i < count; i++) {
        now->refused = (rp_refused){i, do_step(now, all, &steps[i], &after)};
        if (now->refused.fault)
            return RP_STEP_REFUSED;
    }
    for (size_t i = 0; i < now->count; i++)
        now->entries[i].is_left = !now->entries[i].is_placed;
    copy_shelf(bins, &after);
    return RP_DONE;
}

#endif
