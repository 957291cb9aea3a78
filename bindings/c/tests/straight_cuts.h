/* The call that says how straight cuts part a bin into boxes, asked of drawn boxes. What it answers is held against plain loops, and
   against a session in which these boxes stand. To be included once in a program. */
#ifndef STRAIGHT_CUTS_H
#define STRAIGHT_CUTS_H

#include "session_placing.h"
#include "session_restoring.h"
#include "straight_cuts_draws.h"

/* Arrays have room for so many steps at most. */
enum { CUT_STEPS = LIST_ROOM / sizeof(rp_cut_step), CUT_BIN = 7 };

typedef char there_is_room_for_cut_steps[(size_t)CUT_STEPS <= (size_t)STEPS ? 1 : -1];

/* How often boxes were parted, were from no cuts, one was outside, and two shared a cell. */
static long parted, from_no_cuts, found_outside, found_sharing;

/* What the call answered: its status, the plan, or of a short array the number of its steps, and what is wrong. */
typedef struct cut_answer {
    uint32_t status;
    plan told;
    rp_wrong wrong;
} cut_answer;

/* What a call wrote is what its status says. */
static void check_cuts_written(uint32_t status, const rp_cut_step *steps, size_t length, const size_t *count, const rp_wrong *wrong)
{
    size_t written = status == RP_DONE ? *count : 0;
    check(written <= length, "a plan is longer than its array");
    check(is_untouched(steps + written, (length - written) * sizeof *steps), "something is written past a plan");
    check(status != RP_SHORT_ARRAY || *count > length, "an array is too short for a plan that it can hold");
    check(status == RP_DONE || status == RP_SHORT_ARRAY || is_untouched(count, sizeof *count), "a number of steps is written");
    check(status == RP_WRONG_BOXES || is_untouched(wrong, sizeof *wrong), "what is wrong is written where nothing is");
}

/* Asks for the cuts with an array of this length. */
static uint32_t ask_cuts(const layout *it, size_t length, cut_answer *said)
{
    long before = blocks;
    const rp_bin *bin = guarded_copy(BINS_LIST, &it->bin, sizeof *bin);
    const rp_section *boxes = guarded_copy(BOXES_LIST, it->boxes, it->count * sizeof *boxes);
    rp_cut_step *steps = guarded_untouched(STEPS_LIST, length * sizeof *steps);
    size_t *count = guarded_untouched(COUNT, sizeof *count);
    rp_wrong *wrong = guarded_untouched(WRONG, sizeof *wrong);
    said->status = rectangle_pack_straight_cuts(bin, boxes, it->count, steps, length, count, wrong);
    check(blocks == before, "memory of cuts is not given back");
    check(!memcmp(bin, &it->bin, sizeof *bin), "a bin is changed");
    check(!memcmp(boxes, it->boxes, it->count * sizeof *boxes), "boxes are changed");
    check_cuts_written(said->status, steps, length, count, wrong);
    memcpy(said->told.steps, steps, length * sizeof *steps);
    said->told.count = *count;
    said->wrong = *wrong;
    return said->status;
}

static void halve(rp_section part, const rp_cut_step *cut, rp_section *lower, rp_section *upper)
{
    int axis = (int)cut->axis;
    check(cut->axis < AXES, "a cut on no axis");
    check(*corner(&part, axis) < cut->place && cut->place < end(&part, axis), "a cut beside its part");
    *lower = *upper = part;
    *side(lower, axis) = cut->place - *corner(&part, axis);
    *corner(upper, axis) = cut->place;
    *side(upper, axis) = end(&part, axis) - cut->place;
}

/* Adds the leaves of the plan of a part. How many steps it has. */
static size_t add_leaves(filling *leaves, const rp_cut_step *steps, size_t count, rp_section part)
{
    rp_section lower, upper;
    check(count > 0, "a plan ends before its tree");
    if (steps->axis == RP_LEAF) {
        check(steps->place == 0, "a leaf has a place");
        leaves->boxes[leaves->count++] = part;
        return 1;
    }
    halve(part, steps, &lower, &upper);
    size_t taken = 1 + add_leaves(leaves, steps + 1, count - 1, lower);
    return taken + add_leaves(leaves, steps + taken, count - taken, upper);
}

/* The leaves of a plan. They have each cell of the bin once. */
static void read_leaves(const layout *it, const plan *told, filling *leaves)
{
    static cells filled;
    rp_section whole = whole_of(&it->bin);
    uint64_t count = 0;
    leaves->count = 0;
    check(add_leaves(leaves, told->steps, told->count, whole) == told->count, "a plan goes on behind its tree");
    memset(filled, 0, sizeof filled);
    for (size_t i = 0; i < leaves->count; i++)
        count += fill(filled, &it->bin, &leaves->boxes[i]);
    check(count == cells_of(&whole), "the leaves of a plan do not fill the bin");
}

static int is_among(const filling *all, const rp_section *it)
{
    for (size_t i = 0; i < all->count; i++)
        if (are_same(&all->boxes[i], it))
            return 1;
    return 0;
}

/* Each box with cells is a leaf. What else is a leaf has none of their cells: it is free. */
static void split_leaves(const layout *it, const filling *leaves, filling *free)
{
    static filling boxes;
    boxes.count = free->count = 0;
    for (size_t i = 0; i < it->count; i++)
        add_box(&boxes, it->boxes[i]);
    for (size_t i = 0; i < boxes.count; i++)
        check(is_among(leaves, &boxes.boxes[i]), "a box is no leaf");
    for (size_t i = 0; i < leaves->count; i++) {
        if (is_among(&boxes, &leaves->boxes[i]))
            continue;
        for (size_t j = 0; j < boxes.count; j++)
            check(!share_a_cell(&leaves->boxes[i], &boxes.boxes[j]), "a free section has a cell of a box");
        add_box(free, leaves->boxes[i]);
    }
}

/* Each part is cut at its first open plane: the harness's own plan of these leaves is the same. */
static void check_first_planes(const layout *it, const plan *told, const filling *leaves)
{
    static plan own;
    static filling all;
    own.count = all.count = 0;
    for (size_t i = 0; i < leaves->count; i++)
        add_box(&all, leaves->boxes[i]);
    check(add_plan(&own, whole_of(&it->bin), &all), "the leaves of a plan are from no cuts");
    check(own.count == told->count, "how many steps a plan has");
    check(!memcmp(own.steps, told->steps, own.count * sizeof *own.steps), "a part is not cut at its first open plane");
}

/* The parts of a session in which these boxes stand, and this is free. */
static void stand_in_session(const layout *it, const filling *free, parts *all)
{
    memset(all, 0, sizeof *all);
    all->bins[all->bin_count++] = (rp_saved_bin){CUT_BIN, it->bin, 0, (uint32_t)free->count};
    for (size_t i = 0; i < free->count; i++)
        all->sections[all->section_count++] = free->boxes[i];
    for (size_t i = 0; i < it->count; i++)
        all->placements[all->placement_count++] = (rp_standing){i, 0, CUT_BIN, it->boxes[i]};
    all->next_number = it->count;
}

/* A session in which these boxes stand has the same plan, and once more when its bin is cut anew, which leaves the same free
   sections. */
static void check_beside_session(const layout *it, const plan *told, const filling *free)
{
    static parts all;
    static rp_cut_step steps[STEPS];
    rp_session session = RP_NO_SESSION;
    size_t count;
    stand_in_session(it, free, &all);
    restore(&all, &session);
    check(rectangle_pack_session_recut(&session, CUT_BIN) == RP_DONE, "a bin with a plan is not cut anew");
    check(rectangle_pack_session_cut_plan(&session, CUT_BIN, steps, STEPS, &count) == RP_DONE, "a bin that is cut anew has no plan");
    check(count == told->count && !memcmp(steps, told->steps, count * sizeof *steps), "a plan is not that of the bin cut anew");
    save(&session, &all);
    check(all.section_count == free->count, "how many free sections there are beside the bin cut anew");
    for (size_t i = 0; i < all.section_count; i++)
        check(is_among(free, &all.sections[i]), "a free section is not that of the bin cut anew");
    rectangle_pack_session_free(&session);
}

static void check_plan(const layout *it, const plan *told)
{
    static filling leaves, free;
    read_leaves(it, told, &leaves);
    split_leaves(it, &leaves, &free);
    check_first_planes(it, told, &leaves);
    check_beside_session(it, told, &free);
}

/* What has to be answered, by plain loops: RP_WRONG_BOXES, and then also what is wrong; RP_NO_PLAN; or RP_DONE. */
static uint32_t judge_layout(const layout *it, rp_wrong *wrong)
{
    static filling boxes;
    boxes.count = 0;
    *wrong = judge_boxes(0, &it->bin, it->boxes, it->count);
    if (wrong->kind)
        return RP_WRONG_BOXES;
    for (size_t i = 0; i < it->count; i++)
        add_box(&boxes, it->boxes[i]);
    return are_parted(whole_of(&it->bin), &boxes) ? RP_DONE : RP_NO_PLAN;
}

/* Asks with arrays that are too short, too long and right. */
static void ask_each_length(const layout *it, const plan *told)
{
    static cut_answer said;
    size_t lengths[] = {0, told->count - 1, told->count + 1, told->count};
    for (size_t i = 0; i < sizeof lengths / sizeof *lengths; i++) {
        uint32_t right = lengths[i] < told->count ? RP_SHORT_ARRAY : RP_DONE;
        check(ask_cuts(it, lengths[i], &said) == right, "the status of an array that is too short, or is not");
        check(said.told.count == told->count, "the number of the steps that an array has no room for");
        if (right == RP_DONE)
            check(!memcmp(said.told.steps, told->steps, told->count * sizeof *told->steps), "a plan depends on the array");
    }
}

/* The answer is the right one, whatever the length of the array. */
static void check_cuts(const layout *it, const cut_answer *said)
{
    static cut_answer short_of_room;
    rp_wrong wrong;
    uint32_t right = judge_layout(it, &wrong);
    check(said->status == right, "the status of cuts");
    if (right == RP_DONE) {
        check_plan(it, &said->told);
        ask_each_length(it, &said->told);
    } else {
        check(ask_cuts(it, 0, &short_of_room) == right, "the status of cuts depends on the array");
    }
    if (right == RP_WRONG_BOXES) {
        check(said->wrong.kind == wrong.kind && said->wrong.bin == 0, "another thing is wrong with boxes");
        check(said->wrong.first == wrong.first && said->wrong.second == wrong.second, "another box is wrong");
    }
    parted += right == RP_DONE;
    from_no_cuts += right == RP_NO_PLAN;
    found_outside += wrong.kind == RP_WRONG_OUTSIDE;
    found_sharing += wrong.kind == RP_WRONG_SHARED_CELL;
}

/* Asks for the cuts of drawn boxes; where memory is wanted, again with all memory. How often it was wanted. */
static int cut_drawn(void)
{
    static layout drawn;
    static cut_answer said;
    rp_wrong wrong;
    uint32_t right = draw_layout(&drawn);
    check(judge_layout(&drawn, &wrong) == right, "boxes are drawn that are not what they should be");
    refused = 0;
    int wanted = ask_cuts(&drawn, CUT_STEPS, &said) == RP_OUT_OF_MEMORY;
    check(!wanted || refused, "want of memory is answered where all was there");
    refuse_nothing();
    if (wanted)
        ask_cuts(&drawn, CUT_STEPS, &said);
    check_cuts(&drawn, &said);
    return wanted;
}

#endif
