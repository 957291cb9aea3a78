/* Drives the calls that search for packings by collections that are drawn: in one call, in pieces that are drawn, and in sessions in
   which boxes stand, come and go. Each answer is judged: by rectangle_pack_check, cell by cell, and beside what fits by each heuristic;
   in pieces, and asked again, it is the same; and no packing uses fewer bins than are said to be needed. A session is read after each
   command. Then each request for memory is refused in turn. At last come answers by hand. Link it with
   -Wl,--wrap=malloc,--wrap=realloc,--wrap=free. */
#include <limits.h>
#include <stdio.h>
#include <string.h>

#include "rectangle_pack.h"
#include "refusing.h"
#include "searching_once.h"
#include "session_draws.h"
#include "session_searching.h"

/* So many searches are drawn in bins of one call, each made thrice; sessions with some searches each, made twice; and calls of which
   requests are refused. */
enum { SEARCHES = 7000, SESSIONS = 800, SEARCHES_OF_SESSION = 6, REFUSED = 25 };

/* How often something was found, how often some of it was left, or all heuristics were bettered, or it was optimal, and how often
   there was no space. */
typedef struct tally {
    long done, parted, bettered, optimal, without_space;
} tally;

static void count(tally *sums, const request *asked, const found *said, int is_better)
{
    int is_done = said->status == RP_DONE;
    sums->done += is_done;
    sums->parted += is_done && said->said.left > 0 && said->said.left < entries_of(asked);
    sums->bettered += is_done && is_better;
    sums->optimal += is_done && said->said.is_optimal;
    sums->without_space += said->status == RP_NOT_ENOUGH_SPACE;
}

static void check_tally(const tally *sums)
{
    check(sums->done > 1000 && sums->parted > 200 && sums->optimal > 100, "the drawn searches show too little");
    check(sums->bettered > 20 && sums->without_space > 100, "the drawn searches find too little");
}

/* A search in one call, the same again, and in pieces. */
static void search_thrice(tally *sums)
{
    static sought drawn;
    static found said, again;
    draw_sought(&drawn);
    search_once(&drawn, 0, NONE, NONE, &said);
    int is_better = check_search(&drawn, &said);
    search_once(&drawn, 0, NONE, NONE, &again);
    check(are_same_finds(&said, &again), "equal searches find different packings");
    search_once(&drawn, 1, NONE, NONE, &again);
    check_in_pieces(&drawn.wants, &drawn.in.asked, &said, &again);
    count(sums, &drawn.in.asked, &said, is_better);
}

/* Each request is refused in turn, alone and with all after it. Alone it may have been for room that was not needed, and then the answer
   is the one with all memory. How many requests there were. */
static long refuse_each_of(const sought *drawn, int in_pieces)
{
    static found right, again;
    search_once(drawn, in_pieces, NONE, NONE, &right);
    long all = requests;
    for (long request = 0; request < all; request++) {
        uint32_t after = search_once(drawn, in_pieces, request, LONG_MAX, &again);
        check(after == RP_OUT_OF_MEMORY || are_same_finds(&right, &again), "a refused request changes what is found");
        uint32_t alone = search_once(drawn, in_pieces, request, request, &again);
        check(alone == RP_OUT_OF_MEMORY || are_same_finds(&right, &again), "a refused request changes what is found");
    }
    return all;
}

static long refuse_once(void)
{
    static sought drawn;
    draw_sought(&drawn);
    drawn.wants.tries %= 8;
    return refuse_each_of(&drawn, 0) + refuse_each_of(&drawn, 1);
}

/* Two sessions that obey the same commands, and what is known of each. */
typedef struct twins {
    rp_session sessions[2];
    account accounts[2];
} twins;

static void obey_both(twins *both, const command *it)
{
    static answer said;
    for (int i = 0; i < 2; i++)
        obey(&both->sessions[i], it, &both->accounts[i], &said);
}

/* Searches in one of them in one call, in the other in pieces. In one of four, requests are refused from a drawn one on. */
static void search_both(twins *both, uint32_t depth, tally *sums)
{
    static request asked;
    static found said[2];
    wanted wants;
    refusals with = {NONE, NONE};
    int is_better = 0;
    if (!within(0, 3))
        with = (refusals){(long)within(0, 200), LONG_MAX};
    draw_collection(&asked, MOST_BOXES, MOST_MEMBERS, depth < LONGEST ? depth : LONGEST);
    draw_wanted(&wants, ids, BINS);
    for (int i = 0; i < 2; i++)
        is_better = search_session(&both->sessions[i], &both->accounts[i], &wants, &asked, i, with, &said[i]);
    check_in_pieces(&wants, &asked, &said[0], &said[1]);
    count(sums, &asked, &said[0], is_better);
}

/* Bins, and commands with searches between them. */
static void search_sessions(tally *sums)
{
    static const enum kind others[] = {PACK, PACK_COLLECTION, RELEASE, RELEASE, RELEASE_ALL, RELEASE_ALL, COALESCE_ALL, CLEAR_BIN,
                                       GROW_BIN, PLACE_BEST, RECUT};
    static twins both;
    static command it;
    uint32_t depth = within(0, 1) ? SIDE / 2 : 1;
    for (int i = 0; i < 2; i++) {
        both.sessions[i] = (rp_session)RP_NO_SESSION;
        open_account(&both.accounts[i]);
        begin(&both.sessions[i]);
    }
    for (size_t i = 0; i < BINS; i++) {
        draw_command(&it, ADD_BIN, depth);
        it.bin = i;
        obey_both(&both, &it);
    }
    for (int i = 0; i < SEARCHES_OF_SESSION; i++) {
        for (int j = 0; j < 3; j++) {
            draw_command(&it, others[within(0, sizeof others / sizeof *others - 1)], depth);
            obey_both(&both, &it);
        }
        search_both(&both, depth, sums);
    }
    for (size_t i = 0; i < BINS; i++)
        read_plan(&both.sessions[0], &both.accounts[0], i, &both.accounts[0].free[i]);
    for (int i = 0; i < 2; i++)
        rectangle_pack_session_free(&both.sessions[i]);
}

/* Two panels that go on one sheet where the second is turned. */
static const rp_box panels[] = {{4, 10, 1, 0}, {10, 6, 1, 0}};
static const rp_bin sheets[] = {{10, 10, 1}, {10, 10, 1}};

static void check_turned(void)
{
    static const uint32_t flat[] = {0, 4};
    rp_collection all = RP_COLLECTION(panels, 2);
    rp_search_options options = RP_SEARCH_OPTIONS(1000);
    rp_location at[2];
    rp_searched said;
    check(rectangle_pack_searched(sheets, 2, &all, &options, at, 2, &said) == RP_DONE, "by hand: nothing is found");
    check(said.used == 2 && said.least == 2 && said.is_optimal, "by hand: panels that are not turned go on one sheet");
    options.turns = flat;
    options.turn_count = 2;
    check(rectangle_pack_searched(sheets, 2, &all, &options, at, 2, &said) == RP_DONE, "by hand: nothing is found");
    check(said.used == 1 && said.least == 1 && said.is_optimal, "by hand: turned panels do not go on one sheet");
    check(at[1].section.width == 6 && at[1].section.height == 10, "by hand: a panel is not turned");
    options.turn_count = 1;
    check(rectangle_pack_searched(sheets, 2, &all, &options, at, 2, &said) == RP_DONE && said.used == 2, "by hand: a panel is turned");
}

/* The dear sheet is the first, and a box of half its height goes on the other. */
static void check_costs(void)
{
    static const rp_cost costs[] = {{0, 5}, {0, 0}};
    static const rp_box half = {10, 5, 1, 0};
    rp_collection all = RP_COLLECTION(&half, 1);
    rp_search_options options = RP_SEARCH_OPTIONS(1000);
    rp_location at;
    rp_searched said;
    options.costs = costs;
    options.cost_count = 2;
    check(rectangle_pack_searched(sheets, 2, &all, &options, &at, 1, &said) == RP_DONE, "by hand: nothing is found");
    check(at.bin == 1, "by hand: a box goes on the dear sheet");
}

/* Three such boxes do not go on one sheet: one is left, or there is not enough space. */
static void check_left(void)
{
    static const rp_box boxes[] = {{10, 5, 1, 0}, {10, 5, 1, 0}, {10, 5, 1, 0}};
    rp_collection all = RP_COLLECTION(boxes, 3), none = RP_COLLECTION(boxes, 0);
    rp_search_options options = RP_SEARCH_OPTIONS(1000);
    rp_location at[3];
    rp_searched said;
    check(rectangle_pack_searched(sheets, 1, &all, &options, at, 3, &said) == RP_NOT_ENOUGH_SPACE, "by hand: three are on a sheet");
    options.may_leave = 1;
    check(rectangle_pack_searched(sheets, 1, &all, &options, at, 3, &said) == RP_DONE, "by hand: two are not on a sheet");
    check(said.left == 1 && said.used == 1 && said.least == RP_NO_PACKING && !said.is_optimal, "by hand: another number is left");
    check(rectangle_pack_searched(sheets, 0, &none, &options, at, 0, &said) == RP_DONE, "by hand: nothing is not found");
    check(said.left == 0 && said.used == 0 && said.least == 0 && said.is_optimal, "by hand: nothing is in a bin");
    options.size--;
    check(rectangle_pack_searched(sheets, 1, &all, &options, at, 2, &said) == RP_UNKNOWN_OPTIONS, "by hand: options are known");
}

/* By hand: three squares of 6 cells a side, no two of which go on a sheet of 10. */
static void check_bounds(void)
{
    static const rp_bin four[] = {{10, 10, 1}, {10, 10, 1}, {10, 10, 1}, {10, 10, 1}};
    static const rp_box squares[] = {{6, 6, 1, 0}, {6, 6, 1, 0}, {6, 6, 1, 0}};
    static const uint32_t flat[] = {0, 4};
    rp_collection all = RP_COLLECTION(squares, 3), two = RP_COLLECTION(panels, 2);
    size_t least = UNTOUCHED;
    check(rectangle_pack_least_bins(four, 4, &all, flat, 0, &least) == RP_DONE && least == 3, "by hand: three squares need no three");
    check(rectangle_pack_least_bins(four, 4, &two, flat, 0, &least) == RP_DONE && least == 2, "by hand: panels need no two");
    check(rectangle_pack_least_bins(four, 4, &two, flat, 2, &least) == RP_DONE && least == 1, "by hand: turned panels need no one");
    least = UNTOUCHED;
    check(rectangle_pack_least_bins(four, 2, &all, flat, 0, &least) == RP_NOT_ENOUGH_SPACE, "by hand: three squares go on two");
    check(least == UNTOUCHED, "by hand: a bound is written");
}

/* A search that is not ended is freed; and one that was begun for other boxes still finds a packing. */
static void check_handles(void)
{
    rp_collection all = RP_COLLECTION(panels, 2), one = RP_COLLECTION(panels, 1);
    rp_search_options options = RP_SEARCH_OPTIONS(0);
    rp_search search = RP_NO_SEARCH;
    rp_progress now;
    rp_location at[2];
    rp_searched said;
    long before = blocks;
    check(rectangle_pack_search_begin(sheets, 2, &all, &options, &search) == RP_DONE && search.at, "by hand: no search is begun");
    check(rectangle_pack_search_run(&search, 0, &now) == RP_DONE && now.tries == 0, "by hand: no tries are some");
    check(now.left.high == 0 && now.cost.high == 0, "by hand: small numbers are large");
    rectangle_pack_search_free(&search);
    check(!search.at && blocks == before, "by hand: a search is not freed");
    check(rectangle_pack_search_begin(sheets, 1, &one, &options, &search) == RP_DONE, "by hand: no search is begun");
    check(rectangle_pack_found(sheets, 2, &all, &options, &search, at, 2, &said) == RP_DONE, "by hand: other boxes are not packed");
    check(said.used == 2 && said.left == 0 && at[0].bin != at[1].bin && !search.at, "by hand: other boxes are packed otherwise");
}

int main(void)
{
    static tally once, sessions;
    long wants = 0;
    for (int i = 0; i < SEARCHES; i++)
        search_thrice(&once);
    for (int i = 0; i < SESSIONS; i++)
        search_sessions(&sessions);
    for (int i = 0; i < REFUSED; i++)
        wants += refuse_once();
    check(wants > 1000, "memory is refused too seldom");
    check_tally(&once);
    check_tally(&sessions);
    check_turned();
    check_costs();
    check_left();
    check_bounds();
    check_handles();
    check(blocks == 0, "memory is not given back");
    printf("searches: %ld and %ld found, once and in sessions, %ld and %ld better than each heuristic; %ld and %ld without space; %ld "
           "requests refused\n", once.done, sessions.done, once.bettered, sessions.bettered, once.without_space,
           sessions.without_space, wants);
    return 0;
}
