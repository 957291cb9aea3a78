/* Drives the calls that pack once by drawn boxes and collections, with each request for memory refused in turn, alone and with
   all after it, and looks at what they promise: each box in its bin in its size, no two in one cell, groups together, excluded
   groups apart, the placements of the packing rule, nothing written unless all was placed, all memory given back, and equal
   answers to equal lists. Link it with -Wl,--wrap=malloc,--wrap=realloc,--wrap=free. */
#include <stdio.h>
#include <string.h>

#include "one_shot_refusals.h"
#include "packing_draws.h"
#include "rectangle_pack.h"
#include "refusing.h"

enum { BOX_RUNS = 60, COLLECTION_RUNS = 500, STATUSES = 13 };

/* How often each status came, how often there was space by each heuristic that was asked for, how often each was chosen as the
   best, and how often memory was refused. */
static long seen[STATUSES], done_by[HEURISTICS], best_by[HEURISTICS], wants;

/* One call, and the same call with refusals. The status. */
static uint32_t attempt(const input *it)
{
    static reply right, said;
    reply_by_rule(it, &right);
    for (int i = 0; i < 2; i++) {
        call_once(it, NONE, NONE, &said);
        check_reply(it, &right, &said);
    }
    wants += refuse_each(it, &right);
    seen[right.status]++;
    if (right.status == RP_DONE)
        (it->asked.heuristic == RP_BEST ? best_by : done_by)[right.chosen]++;
    return right.status;
}

static void draw_bins(input *it, uint32_t low, uint32_t depth)
{
    it->bin_count = within(0, 9) ? within(low, BINS) : 0;
    for (size_t i = 0; i < it->bin_count; i++)
        it->bins[i] = (rp_bin){within(1, SIDE), within(1, SIDE), within(1, depth)};
}

/* Boxes alone, or a collection, which is flat in one of two. */
static void draw_input(input *it, int is_collection)
{
    uint32_t depth = is_collection && within(0, 1) ? 1 : SIDE, box_depth = depth < LONGEST ? depth : LONGEST;
    memset(it, 0, sizeof *it);
    it->way = is_collection ? ALL_OF_IT : BOXES_ALONE;
    draw_bins(it, is_collection ? 1 : BINS, depth);
    if (is_collection)
        draw_collection(&it->asked, BOXES / 2, MEMBERS, box_depth);
    else
        draw_boxes(&it->asked, BOXES, box_depth);
}

/* Boxes in several groups and excluded groups; there are different numbers of bins, boxes, members and exclusions. The places
   are those that packrun prints. */
static const input several = {
    ALL_OF_IT,
    {{10, 10, 1}, {9, 9, 1}, {12, 9, 1}},
    3,
    {{{4, 4, 1, 1}, {4, 3, 1, 2}, {2, 3, 1, 1}, {1, 1, 1, 0}, {5, 2, 1, 4}},
     {{2, 2}, {2, 0}, {0, 3}, {1, 0}},
     {{2, 1}, {3, 2}},
     5,
     4,
     2,
     9,
     RP_VOLUME,
     {{0, 0, 0}},
     0}};

static const rp_placement places_of_several[] = {{1, 0, 0, 0}, {0, 0, 0, 0}, {1, 4, 0, 0}, {1, 6, 3, 0}, {1, 4, 7, 0},
                                                 {0, 4, 0, 0}, {1, 6, 0, 0}, {1, 0, 4, 0}, {1, 4, 4, 0}};

static void check_several(void)
{
    reply said;
    check(call_once(&several, NONE, NONE, &said) == RP_DONE, "several groups are not packed");
    check(!memcmp(said.placed, places_of_several, sizeof places_of_several), "several groups are not where they have to be");
    check(said.chosen == RP_VOLUME, "another heuristic was asked for");
    check(attempt(&several) == RP_DONE, "several groups are not packed");
}

/* Three boxes that find space by their heights, and not by their volumes. */
static void check_best(void)
{
    reply said;
    input it = {ALL_OF_IT,
                {{4, 4, 1}},
                1,
                {{{1, 3, 1, 0}, {3, 2, 1, 0}, {3, 1, 1, 0}}, {{0, 0}}, {{0, 0}}, 3, 0, 0, 3, RP_BEST, {{0, 0, 0}}, 0}};
    check(call_once(&it, NONE, NONE, &said) == RP_DONE && said.chosen == RP_HEIGHT, "the best heuristic is another one");
    check(attempt(&it) == RP_DONE, "the best heuristic finds no space");
    for (it.asked.heuristic = 0; it.asked.heuristic < HEURISTICS; it.asked.heuristic++)
        check(attempt(&it) == RP_DONE || it.asked.heuristic != RP_HEIGHT, "there is no space by heights");
    it.asked.heuristic = RP_VOLUME;
    check(attempt(&it) == RP_NOT_ENOUGH_SPACE, "there is space by volumes");
    it.way = BOXES_ALONE;
    check(attempt(&it) == RP_NOT_ENOUGH_SPACE, "there is space for boxes alone");
}

/* Two boxes of one bin go into two where their groups are excluded. */
static void check_excluded(void)
{
    input it = {ALL_OF_IT, {{9, 9, 1}}, 1, {{{4, 4, 1, 1}, {4, 4, 1, 2}}, {{0, 0}}, {{1, 2}}, 2, 0, 0, 2, RP_BEST, {{0, 0, 0}}, 0}};
    check(attempt(&it) == RP_DONE, "two boxes are not packed");
    it.asked.exclusion_count = 1;
    check(attempt(&it) == RP_NOT_ENOUGH_SPACE, "excluded groups are in one bin");
    it.bins[it.bin_count++] = (rp_bin){4, 4, 1};
    check(attempt(&it) == RP_DONE, "excluded groups are not packed into two bins");
}

/* Of several things that are wrong the first is answered, whether all is to be packed, what fits, or what steps name. */
static void check_faults(enum way way)
{
    static const uint32_t faults[] = {RP_BAD_LENGTHS, RP_UNKNOWN_HEURISTIC, RP_UNKNOWN_BOX, RP_EQUAL_GROUPS};
    for (uint32_t wrong = 1; wrong < 16; wrong++) {
        input it = several;
        it.way = way;
        it.asked.places -= wrong & 1;
        it.asked.heuristic = wrong & 2 ? HEURISTICS : RP_BEST;
        it.asked.steps[it.asked.step_count++] = (rp_step){0, 0, wrong & 2 ? RP_BEST : RP_VOLUME};
        if (wrong & 4)
            it.asked.members[3].index = 5;
        if (wrong & 8)
            it.asked.exclusions[1].one = it.asked.exclusions[1].other;
        size_t first = 0;
        while (!(wrong >> first & 1))
            first++;
        check(attempt(&it) == faults[first], "another thing that is wrong is answered first");
    }
}

/* Lists of 2^32 entries, of which none may be looked at, are too long; and so are a box and members if they need as many
   places. The lists that are not written may be one. */
static void check_long_lists(void)
{
    enum { A_BIN = 1 };
    size_t many = (size_t)UINT32_MAX + 1;
    void *read = forbidden(many * sizeof(rp_box)), *written = forbidden(many * sizeof(rp_placement));
    rp_collection boxes = RP_COLLECTION((const rp_box *)read, many), members = RP_COLLECTION((const rp_box *)read, 1);
    rp_bin bin = {1, 1, 1};
    uint32_t chosen = UNTOUCHED;
    rp_fitted fitted = {UNTOUCHED, UNTOUCHED};
    members.member_count = many - 1;
    check(rectangle_pack_boxes(&bin, A_BIN, read, many, written, many) == RP_BAD_LENGTHS, "2^32 boxes");
    check(rectangle_pack_boxes(read, many, read, 0, written, 0) == RP_BAD_LENGTHS, "2^32 bins");
    check(rectangle_pack_collection(&bin, A_BIN, &boxes, 0, written, many, &chosen) == RP_BAD_LENGTHS, "2^32 boxes to collect");
    check(rectangle_pack_collection(&bin, A_BIN, &members, 0, written, many, &chosen) == RP_BAD_LENGTHS, "2^32 places");
    check(rectangle_pack_collection(read, many, &members, 0, written, 1, &chosen) == RP_BAD_LENGTHS, "2^32 bins to collect in");
    check(rectangle_pack_fitting(&bin, A_BIN, &boxes, 0, written, many, &fitted) == RP_BAD_LENGTHS, "2^32 boxes to fit");
    check(rectangle_pack_fitting(&bin, A_BIN, &members, 0, written, many, &fitted) == RP_BAD_LENGTHS, "2^32 places to fit");
    check(rectangle_pack_fitting(read, many, &members, 0, written, 1, &fitted) == RP_BAD_LENGTHS, "2^32 bins to fit in");
    check(chosen == UNTOUCHED, "a heuristic is written where lists are too long");
    check(fitted.heuristic == UNTOUCHED && fitted.left == UNTOUCHED, "what is left is written where lists are too long");
    munmap(read, many * sizeof(rp_box));
    munmap(written, many * sizeof(rp_placement));
}

/* The example of the README. */
static void check_readme(void)
{
    rp_placement placements[3];
    rp_bin sheets[] = {{64, 64, 1}, {128, 128, 1}};
    rp_box sprites[] = {{10, 20, 1, 1}, {5, 50, 1, 1}, {60, 60, 1, 0}};
    uint32_t status = rectangle_pack_boxes(sheets, 2, sprites, 3, placements, 3);
    check(status == RP_DONE, "the example is not packed");
    check(placements[0].bin == placements[1].bin, "the example's group is in two bins");
}

static void check_bad_lengths(void)
{
    rp_bin bin = {1, 1, 1};
    rp_box box = {1, 1, 1, 0};
    rp_placement place[2];
    check(rectangle_pack_boxes(&bin, 1, &box, 1, place, 0) == RP_BAD_LENGTHS, "no placement for a box");
    check(rectangle_pack_boxes(&bin, 1, &box, 1, place, 2) == RP_BAD_LENGTHS, "two placements for a box");
    check(rectangle_pack_boxes(&bin, 1, &box, 0, place, 0) == RP_DONE, "no boxes are refused");
}

int main(void)
{
    static input drawn;
    int winners = 0;
    for (int run = 0; run < BOX_RUNS + COLLECTION_RUNS; run++) {
        draw_input(&drawn, run >= BOX_RUNS);
        attempt(&drawn);
    }
    for (int i = 0; i < HEURISTICS; i++) {
        check(done_by[i] > 2, "a heuristic is asked for too seldom");
        winners += best_by[i] > 0;
    }
    check(seen[RP_DONE] > 50 && seen[RP_NOT_ENOUGH_SPACE] > 30 && wants > 100, "the drawn boxes show too little");
    check(seen[RP_UNKNOWN_HEURISTIC] > 2 && seen[RP_UNKNOWN_BOX] > 2 && seen[RP_EQUAL_GROUPS] > 2, "too little is wrong");
    check(seen[RP_BAD_LENGTHS] > 2 && winners > 2, "the drawn collections show too little");
    check_several();
    check_best();
    check_excluded();
    check_faults(ALL_OF_IT);
    check_faults(WHAT_FITS);
    check_faults(AS_TOLD);
    check_long_lists();
    check_readme();
    check_bad_lengths();
    printf("%ld inputs done, %ld without space; %d heuristics were the best; %ld requests refused\n", seen[RP_DONE],
           seen[RP_NOT_ENOUGH_SPACE], winners, wants);
    return 0;
}
