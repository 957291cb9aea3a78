/* Boxes of which a harness asks for straight cuts: by hand, many at once, and drawn ones, also with each request for memory refused.
   To be included once in a program. */
#ifndef STRAIGHT_CUTS_CASES_H
#define STRAIGHT_CUTS_CASES_H

#include <limits.h>

#include "straight_cuts.h"

enum { DRAWN_LAYOUTS = 20000, REFUSED_LAYOUTS = 300, GRID = 200 };

/* Of boxes by hand: the status, and where they are wrong what is. */
static void check_cuts_of(rp_bin bin, const rp_section *boxes, size_t count, uint32_t right, rp_wrong wrong)
{
    static rp_cut_step steps[STEPS];
    rp_wrong said = wrong_at(0, 0, 0, 0);
    size_t length;
    check(rectangle_pack_straight_cuts(&bin, boxes, count, steps, STEPS, &length, &said) == right, "the status of boxes by hand");
    check(said.kind == wrong.kind && said.bin == 0, "what is wrong with boxes by hand");
    check(said.first == wrong.first && said.second == wrong.second, "which box by hand is wrong");
}

/* By hand: what is outside comes before what shares a cell; boxes without cells are to be inside, and share none; numbers are not
   added up in 32 bits; and a pinwheel is from no cuts, but three of its strips are. */
static void check_boxes_by_hand(void)
{
    static const rp_section left = {0, 0, 0, 4, 10, 1}, over = {3, 9, 0, 2, 1, 1}, out = {9, 0, 0, 2, 1, 1};
    static const rp_section none = {1, 1, 0, 0, 3, 1}, none_outside = {11, 0, 0, 0, 1, 1}, deep = {0, 0, 1, 1, 1, 1};
    static const rp_section strips[] = {{0, 0, 0, 2, 1, 1}, {2, 0, 0, 1, 2, 1}, {1, 2, 0, 2, 1, 1}, {0, 1, 0, 1, 2, 1}};
    const rp_section far_out = {1, 0, 0, UINT32_MAX, 1, 1}, far_in = {UINT32_MAX - 1, 0, 0, 1, 1, 1};
    const rp_bin sheet = {10, 10, 1}, square = {3, 3, 1}, longest = {UINT32_MAX, 1, 1};
    const rp_wrong nothing = wrong_at(0, 0, 0, 0);
    check_cuts_of(sheet, (rp_section[]){left, over, out, out}, 4, RP_WRONG_BOXES, wrong_at(RP_WRONG_OUTSIDE, 0, 2, 0));
    check_cuts_of(sheet, (rp_section[]){out, left, over}, 3, RP_WRONG_BOXES, wrong_at(RP_WRONG_OUTSIDE, 0, 0, 0));
    check_cuts_of(sheet, (rp_section[]){none, left, over}, 3, RP_WRONG_BOXES, wrong_at(RP_WRONG_SHARED_CELL, 0, 1, 2));
    check_cuts_of(sheet, (rp_section[]){left, none_outside}, 2, RP_WRONG_BOXES, wrong_at(RP_WRONG_OUTSIDE, 0, 1, 0));
    check_cuts_of(sheet, &deep, 1, RP_WRONG_BOXES, wrong_at(RP_WRONG_OUTSIDE, 0, 0, 0));
    check_cuts_of(longest, &far_out, 1, RP_WRONG_BOXES, wrong_at(RP_WRONG_OUTSIDE, 0, 0, 0));
    check_cuts_of(longest, &far_in, 1, RP_DONE, nothing);
    check_cuts_of(sheet, (rp_section[]){none, left, none}, 3, RP_DONE, nothing);
    check_cuts_of(square, strips, 4, RP_NO_PLAN, nothing);
    check_cuts_of(square, strips, 3, RP_DONE, nothing);
}

/* By hand: left is cut off at once, and then what is free above the corner. */
static void check_steps_by_hand(void)
{
    static const rp_cut_step right[] = {{0, 4}, {RP_LEAF, 0}, {1, 3}, {RP_LEAF, 0}, {RP_LEAF, 0}};
    static const rp_section boxes[] = {{4, 0, 0, 6, 3, 1}, {0, 0, 0, 4, 10, 1}};
    const rp_bin sheet = {10, 10, 1};
    rp_cut_step steps[5];
    rp_wrong wrong;
    size_t count;
    check(rectangle_pack_straight_cuts(&sheet, boxes, 2, steps, 5, &count, &wrong) == RP_DONE, "two boxes are from no cuts");
    check(count == 5 && !memcmp(steps, right, sizeof right), "the plan of two boxes is another");
    check(rectangle_pack_straight_cuts(&sheet, boxes, 0, steps, 1, &count, &wrong) == RP_DONE, "an empty bin has no plan");
    check(count == 1 && steps->axis == RP_LEAF, "an empty bin is cut");
}

/* A grid of many boxes of one cell. One box is missing, and is free: each has its leaf all the same. */
static void check_many_boxes(void)
{
    static rp_section boxes[GRID * GRID];
    static rp_cut_step steps[2 * GRID * GRID - 1];
    const rp_bin sheet = {GRID, GRID, 1};
    rp_wrong wrong;
    size_t boxes_count = 0, count, leaves = 0;
    for (uint32_t i = 0; i < GRID * GRID; i++)
        if (i != GRID + 1)
            boxes[boxes_count++] = (rp_section){i % GRID, i / GRID, 0, 1, 1, 1};
    uint32_t status = rectangle_pack_straight_cuts(&sheet, boxes, boxes_count, steps, 2 * GRID * GRID - 1, &count, &wrong);
    check(status == RP_DONE && count == 2 * GRID * GRID - 1, "a grid has another plan");
    for (size_t i = 0; i < count; i++)
        leaves += steps[i].axis == RP_LEAF;
    check(leaves == GRID * GRID, "a grid has other leaves");
}

/* Asks for the cuts of drawn boxes with each request for memory refused in turn, alone and with all after it. How often memory was
   wanted. */
static long cut_each(void)
{
    static layout drawn;
    static cut_answer right, said;
    long wanted = 0;
    draw_layout(&drawn);
    refuse_requests(NONE, NONE);
    ask_cuts(&drawn, CUT_STEPS, &right);
    long all = requests;
    for (long request = 0; request < all; request++) {
        refuse_requests(request, LONG_MAX);
        check(ask_cuts(&drawn, CUT_STEPS, &said) == RP_OUT_OF_MEMORY, "want of memory is not answered");
        refuse_requests(request, request);
        check(ask_cuts(&drawn, CUT_STEPS, &said) == RP_OUT_OF_MEMORY || said.status == right.status, "a refused request changes a status");
        if (said.status == RP_DONE)
            check(!memcmp(said.told.steps, right.told.steps, sizeof said.told.steps), "a refused request changes a plan");
        wanted++;
    }
    refuse_nothing();
    check_cuts(&drawn, &right);
    return wanted;
}

/* Boxes that are drawn, of which straight cuts are asked. How often memory was wanted. */
static long cut_many(void)
{
    long wanted = 0;
    refuse_nothing();
    check_boxes_by_hand();
    check_steps_by_hand();
    check_many_boxes();
    for (int i = 0; i < DRAWN_LAYOUTS; i++)
        check(!cut_drawn(), "want of memory is answered where all was there");
    for (int i = 0; i < REFUSED_LAYOUTS; i++)
        wanted += cut_each();
    check(blocks == 0, "memory is not given back");
    check(parted > DRAWN_LAYOUTS / 4 && from_no_cuts > DRAWN_LAYOUTS / 20, "too few boxes are parted, or from no cuts");
    check(found_outside > DRAWN_LAYOUTS / 20 && found_sharing > DRAWN_LAYOUTS / 20, "too few boxes are wrong");
    check(wanted > 1000, "memory is wanted too seldom");
    return wanted;
}

#endif
