/* Drives the two calls that pack what fits by collections that are drawn, many for each heuristic and for the best of all: in bins of
   one call, and in sessions in which boxes stand, come and go. Each answer is held against the packing rule: each group goes into the
   first bin that takes all of it, or is left. A session is read after each command. Then each request for memory is refused in turn,
   in bins of one call; session_harness.c does so in sessions. At last come answers by hand. Link it with
   -Wl,--wrap=malloc,--wrap=realloc,--wrap=free. */
#include <stdio.h>
#include <string.h>

#include "one_shot_refusals.h"
#include "packing_draws.h"
#include "rectangle_pack.h"
#include "refusing.h"
#include "session_commands.h"
#include "session_draws.h"

/* So many collections are packed by each heuristic, or more: in bins of one call, and in sessions. So many are packed with refusals. */
enum { COLLECTIONS = 5000, REFUSED = 400, WAYS = HEURISTICS + 1 };

/* How often what fits was packed, how often some of it was left and some was placed, and how often each heuristic was the best. */
typedef struct tally {
    long done, parted, best_by[HEURISTICS];
} tally;

static uint32_t heuristic_at(uint32_t way)
{
    return way < HEURISTICS ? way : RP_BEST;
}

static void count(tally *sums, const request *asked, uint32_t chosen, size_t left)
{
    sums->done++;
    sums->parted += left > 0 && left < entries_of(asked);
    if (asked->heuristic == RP_BEST)
        sums->best_by[chosen]++;
}

/* Each heuristic packed often enough, in many packings some was left and some placed, and several heuristics were the best. */
static void check_tallies(const tally *sums)
{
    int winners = 0;
    for (uint32_t way = 0; way < WAYS; way++)
        check(sums[way].done >= COLLECTIONS && sums[way].parted > COLLECTIONS / 4, "the drawn collections show too little");
    for (int i = 0; i < HEURISTICS; i++)
        winners += sums[HEURISTICS].best_by[i] > 0;
    check(winners > 4, "too few heuristics are the best");
}

/* Bins and boxes, flat in one of two calls. */
static uint32_t draw_bins(input *it)
{
    uint32_t depth = within(0, 1) ? SIDE / 2 : 1;
    memset(it, 0, sizeof *it);
    it->way = WHAT_FITS;
    it->bin_count = within(0, 19) ? within(1, BINS) : 0;
    for (size_t i = 0; i < it->bin_count; i++)
        it->bins[i] = (rp_bin){within(1, SIDE), within(1, SIDE), within(1, depth)};
    return depth < LONGEST ? depth : LONGEST;
}

static void fit_once(uint32_t heuristic, tally *sums)
{
    static input drawn;
    static reply right, said;
    uint32_t depth = draw_bins(&drawn);
    draw_boxes(&drawn.asked, BOXES, depth);
    draw_groups(&drawn.asked, MEMBERS);
    drawn.asked.heuristic = heuristic;
    reply_by_rule(&drawn, &right);
    check(call_once(&drawn, NONE, NONE, &said) == RP_DONE, "what fits is not packed");
    check_reply(&drawn, &right, &said);
    count(sums, &drawn.asked, said.chosen, said.left);
}

/* A collection, with which something may be wrong, and each request for memory refused in turn. How many there were. */
static long refuse_once(void)
{
    static input drawn;
    static reply right, said;
    uint32_t depth = draw_bins(&drawn);
    draw_collection(&drawn.asked, BOXES / 2, MEMBERS, depth);
    reply_by_rule(&drawn, &right);
    call_once(&drawn, NONE, NONE, &said);
    check_reply(&drawn, &right, &said);
    return refuse_each(&drawn, &right);
}

/* A session with bins, and commands of which every other one packs what fits. */
static void fit_in_session(uint32_t heuristic, tally *sums)
{
    static const enum kind others[] = {PACK, PACK_COLLECTION, RELEASE, RELEASE, RELEASE_ALL, COALESCE, COALESCE_ALL, CLEAR_BIN, GROW_BIN,
                                       PLACE_AT, PLACE_BEST, PLACE_ANYWHERE, RECUT};
    static account now;
    static answer said;
    static command it;
    uint32_t depth = within(0, 1) ? SIDE / 2 : 1;
    rp_session session = RP_NO_SESSION;
    open_account(&now);
    begin(&session);
    for (size_t i = 0; i < COMMANDS; i++) {
        int fits = i >= BINS && i % 2 == 0;
        draw_command(&it, i < BINS ? ADD_BIN : fits ? PACK_FITTING : others[within(0, sizeof others / sizeof *others - 1)], depth);
        if (i < BINS)
            it.bin = i;
        if (fits) {
            draw_boxes(&it.asked, MOST_BOXES, depth < LONGEST ? depth : LONGEST);
            draw_groups(&it.asked, MOST_MEMBERS);
            it.asked.heuristic = heuristic;
        }
        obey(&session, &it, &now, &said);
        if (fits)
            count(sums, &it.asked, said.chosen, said.left);
    }
    for (size_t i = 0; i < BINS; i++)
        read_plan(&session, &now, i, &now.free[i]);
    rectangle_pack_session_free(&session);
}

/* By volume: two boxes of one group, that do not go into the bin together; a box as high as the bin; a box of group 2, beside it; and
   two of group 3, which is excluded with group 2, one of them a member. */
static const request by_hand = {
    {{6, 10, 1, 1}, {6, 10, 1, 1}, {4, 10, 1, 0}, {2, 2, 1, 2}, {1, 1, 1, 3}}, {{4, 3}}, {{3, 2}}, 5, 1, 1, 6, RP_VOLUME, {{0, 0, 0}}, 0};

static void check_left(const rp_placement *it)
{
    check(it->bin == RP_LEFT_BIN && it->x == 0 && it->y == 0 && it->z == 0, "by hand: a box is not left");
}

static void check_at(const rp_placement *it, uint32_t bin, uint32_t x, uint32_t y)
{
    check(it->bin == bin && it->x == x && it->y == y && it->z == 0, "by hand: a box is elsewhere");
}

static void check_by_hand(void)
{
    static const rp_bin bin = {10, 10, 1};
    rp_collection all = collection_of(&by_hand);
    rp_placement at[6];
    rp_fitted fitted;
    check(rectangle_pack_fitting(&bin, 1, &all, RP_VOLUME, at, 6, &fitted) == RP_DONE, "by hand: nothing is packed");
    check(fitted.heuristic == RP_VOLUME && fitted.left == 4, "by hand: another number is left");
    check_left(&at[0]);
    check_left(&at[1]);
    check_at(&at[2], 0, 0, 0);
    check_at(&at[3], 0, 4, 0);
    check_left(&at[4]);
    check_left(&at[5]);
    check(rectangle_pack_fitting(&bin, 0, &all, RP_BEST, at, 6, &fitted) == RP_DONE, "by hand: no bins are refused");
    check(fitted.heuristic == RP_VOLUME && fitted.left == 6, "by hand: a box is in no bin");
}

/* The same in a session, whose bin has the id that says of a placement that it is left. */
static void check_session_by_hand(void)
{
    rp_collection all = collection_of(&by_hand);
    rp_outstanding at[6];
    rp_fitted fitted;
    rp_session session = RP_NO_SESSION;
    begin(&session);
    check(rectangle_pack_session_add_bin(&session, RP_LEFT_BIN, 10, 10, 1) == RP_DONE, "by hand: no bin is added");
    check(rectangle_pack_session_pack_fitting(&session, &all, RP_BEST, at, 6, &fitted) == RP_DONE, "by hand: nothing is packed");
    check(fitted.left == 4 && at[2].number == 0 && at[3].number == 1, "by hand: a number is another");
    check_at(&at[2].placement, RP_LEFT_BIN, 0, 0);
    check_at(&at[3].placement, RP_LEFT_BIN, 4, 0);
    for (int i = 0; i < 6; i++) {
        if (i == 2 || i == 3)
            continue;
        check(at[i].number == RP_LEFT_NUMBER, "by hand: what is left has a number");
        check_left(&at[i].placement);
    }
    check(rectangle_pack_session_next_number(&session) == 2, "by hand: what is left uses numbers up");
    rectangle_pack_session_free(&session);
}

/* By volume the second box goes first, to (0, 0): what is left of the bin is 1x2 beside it and 4x2 above it. The first box is too high
   for both, and the third goes above. By height all three find space. */
static void check_best_by_hand(void)
{
    static const rp_bin bin = {4, 4, 1};
    static const rp_box boxes[] = {{1, 3, 1, 0}, {3, 2, 1, 0}, {3, 1, 1, 0}};
    rp_collection all = RP_COLLECTION(boxes, 3);
    rp_placement at[3];
    rp_fitted fitted;
    check(rectangle_pack_fitting(&bin, 1, &all, RP_VOLUME, at, 3, &fitted) == RP_DONE, "by hand: nothing is packed");
    check(fitted.left == 1, "by hand: by volume another number is left");
    check_left(&at[0]);
    check_at(&at[1], 0, 0, 0);
    check_at(&at[2], 0, 0, 2);
    check(rectangle_pack_fitting(&bin, 1, &all, RP_BEST, at, 3, &fitted) == RP_DONE, "by hand: nothing is packed");
    check(fitted.left == 0 && fitted.heuristic == RP_HEIGHT, "by hand: the best leaves a box");
}

/* The greatest number that is given is 2^64 - 2. Boxes that would be left count as the others do. */
static void check_numbers(void)
{
    static const rp_box boxes[] = {{2, 2, 1, 0}, {1, 1, 1, 0}};
    rp_collection two = RP_COLLECTION(boxes, 2), one = RP_COLLECTION(&boxes[1], 1), none = RP_COLLECTION(boxes, 0);
    rp_saved_bin bin = {7, {1, 1, 1}, 0, 1};
    rp_section free = {0, 0, 0, 1, 1, 1};
    rp_standing nothing;
    rp_saved saved = {&bin, 1, &free, 1, &nothing, 0, RP_LEFT_NUMBER - 1};
    rp_session session = RP_NO_SESSION;
    rp_wrong wrong;
    rp_outstanding at[2];
    rp_fitted fitted;
    check(rectangle_pack_session_restore(&session, &saved, &wrong) == RP_DONE, "numbers: no session is made");
    memset(at, UNTOUCHED, sizeof at);
    memset(&fitted, UNTOUCHED, sizeof fitted);
    check(rectangle_pack_session_pack_fitting(&session, &two, 0, at, 2, &fitted) == RP_NUMBERS_USED_UP, "numbers: there are two");
    check(is_untouched(at, sizeof at) && is_untouched(&fitted, sizeof fitted), "numbers: something is written");
    check(rectangle_pack_session_pack_fitting(&session, &one, 0, at, 1, &fitted) == RP_DONE, "numbers: there is none");
    check(fitted.left == 0 && at[0].number == RP_LEFT_NUMBER - 1, "numbers: the greatest is another");
    check_at(&at[0].placement, 7, 0, 0);
    check(rectangle_pack_session_pack_fitting(&session, &one, 0, at, 1, &fitted) == RP_NUMBERS_USED_UP, "numbers: there is one more");
    check(rectangle_pack_session_pack_fitting(&session, &none, RP_BEST, at, 0, &fitted) == RP_DONE, "numbers: no boxes need one");
    rectangle_pack_session_free(&session);
}

int main(void)
{
    static tally once[WAYS], sessions[WAYS];
    long wants = 0;
    for (uint32_t way = 0; way < WAYS; way++) {
        while (once[way].done < COLLECTIONS)
            fit_once(heuristic_at(way), &once[way]);
        while (sessions[way].done < COLLECTIONS)
            fit_in_session(heuristic_at(way), &sessions[way]);
    }
    for (int i = 0; i < REFUSED; i++)
        wants += refuse_once();
    check(wants > 1000, "memory is refused too seldom");
    check_tallies(once);
    check_tallies(sessions);
    check_by_hand();
    check_session_by_hand();
    check_best_by_hand();
    check_numbers();
    check(blocks == 0, "memory is not given back");
    printf("what fits: %d collections by each heuristic, once and in sessions; with the best, boxes were left and placed %ld and %ld "
           "times; %ld requests refused\n", COLLECTIONS, once[HEURISTICS].parted, sessions[HEURISTICS].parted, wants);
    return 0;
}
