/* Drives the two calls that pack as they are told by collections and steps that are drawn, in bins of one call and in sessions in which
   boxes stand, come and go. Each answer is held against a plain rule: each step in turn puts its group into its bin, or is refused with
   the first reason there is. A session is read after each command. Then each request for memory is refused in turn, in bins of one
   call; session_harness.c does so in sessions. At last come answers by hand. Link it with -Wl,--wrap=malloc,--wrap=realloc,--wrap=free. */
#include <stdio.h>
#include <string.h>

#include "one_shot_refusals.h"
#include "rectangle_pack.h"
#include "refusing.h"
#include "session_commands.h"
#include "session_draws.h"
#include "told_draws.h"

/* So many lists of steps are drawn for bins of one call, sessions for others, and calls of which requests are refused. */
enum { CALLS = 20000, SESSIONS = 2000, REFUSED = 400, FAULTS = RP_STEP_NO_ROOM + 1 };

/* How often steps were all done, and how many these were, and how often a step was refused for each reason. */
typedef struct tally {
    long done, steps, refused[FAULTS];
} tally;

static void count(tally *sums, const request *asked, uint32_t status, const rp_refused *refused)
{
    if (status == RP_STEP_REFUSED)
        sums->refused[refused->fault]++;
    if (status != RP_DONE)
        return;
    sums->steps += (long)asked->step_count;
    sums->done += asked->step_count > 0;
}

static void check_tally(const tally *sums)
{
    check(sums->done > 500 && 2 * sums->steps > 3 * sums->done, "the drawn steps show too little");
    for (int fault = RP_STEP_UNKNOWN_BIN; fault < FAULTS; fault++)
        check(sums->refused[fault] > 100, "steps are refused too seldom");
}

/* Bins and steps into these, flat in one of two calls. */
static void draw_input(input *it)
{
    static const uint32_t indices[BINS] = {0, 1, 2, 3};
    uint32_t depth = within(0, 1) ? SIDE / 2 : 1;
    memset(it, 0, sizeof *it);
    it->way = AS_TOLD;
    it->bin_count = within(0, 19) ? within(1, BINS) : 0;
    for (size_t i = 0; i < it->bin_count; i++)
        it->bins[i] = (rp_bin){within(4, SIDE), within(4, SIDE), within(1, depth)};
    draw_told(&it->asked, BOXES / 2, MEMBERS, depth < LONGEST ? depth : LONGEST, indices, it->bin_count);
}

static void tell_once(tally *sums)
{
    static input drawn;
    static reply right, said;
    draw_input(&drawn);
    reply_by_rule(&drawn, &right);
    call_once(&drawn, NONE, NONE, &said);
    check_reply(&drawn, &right, &said);
    count(sums, &drawn.asked, said.status, &said.refused);
}

/* Each request for memory is refused in turn. How many there were. */
static long refuse_once(void)
{
    static input drawn;
    static reply right, said;
    draw_input(&drawn);
    reply_by_rule(&drawn, &right);
    call_once(&drawn, NONE, NONE, &said);
    return refuse_each(&drawn, &right);
}

/* A session with bins, and commands of which every other one packs as it is told. */
static void tell_session(tally *sums)
{
    static const enum kind others[] = {PACK, PACK_COLLECTION, RELEASE, RELEASE, RELEASE_ALL, RELEASE_ALL, COALESCE_ALL, CLEAR_BIN,
                                       GROW_BIN, PLACE_BEST, RECUT, REMOVE_BIN, ADD_BIN};
    static account now;
    static answer said;
    static command it;
    uint32_t depth = within(0, 1) ? SIDE / 2 : 1;
    rp_session session = RP_NO_SESSION;
    open_account(&now);
    begin(&session);
    for (size_t i = 0; i < COMMANDS; i++) {
        int is_told = i >= BINS && i % 2 == 0;
        draw_command(&it, i < BINS ? ADD_BIN : is_told ? PACK_TOLD : others[within(0, sizeof others / sizeof *others - 1)], depth);
        if (i < BINS)
            it.bin = i;
        obey(&session, &it, &now, &said);
        if (is_told)
            count(sums, &it.asked, said.status, &said.refused);
    }
    for (size_t i = 0; i < BINS; i++)
        read_plan(&session, &now, i, &now.free[i]);
    rectangle_pack_session_free(&session);
}

/* Three boxes as high as the bins, of which the last two are of group 1; and one of group 2 that is a member of group 3, which is
   excluded with group 1. */
static const rp_bin two_bins[] = {{10, 10, 1}, {10, 10, 1}};
static const rp_box boxes[] = {{3, 10, 1, 0}, {2, 10, 1, 1}, {5, 10, 1, 1}, {3, 3, 1, 2}};
static const rp_member member = {3, 3};
static const rp_exclusion apart = {1, 3};
static const rp_collection by_hand = {boxes, 4, &member, 1, &apart, 1};

static int is_at(const rp_placement *it, uint32_t bin, uint32_t x, uint32_t y)
{
    return it->bin == bin && it->x == x && it->y == y && it->z == 0;
}

/* The step at this index is refused, and for this reason. */
static void check_refused(const rp_step *steps, size_t step_count, size_t step, uint32_t fault)
{
    rp_placement at[5];
    rp_refused refused;
    uint32_t status = rectangle_pack_told(two_bins, 2, &by_hand, steps, step_count, at, 5, &refused);
    check(status == RP_STEP_REFUSED && refused.step == step && refused.fault == fault, "by hand: another step is refused");
}

/* Beside the group 1 a column of 3 is free, which the box of group 2 does not leave to the first box. */
static void check_by_hand(void)
{
    static const rp_step done[] = {{0, 1, RP_VOLUME}, {3, 0, RP_HEIGHT}, {4, 1, RP_VOLUME}};
    static const rp_step unknown[] = {{0, 1, RP_VOLUME}, {3, 2, RP_VOLUME}, {3, 0, RP_VOLUME}};
    static const rp_step twice[] = {{1, 0, RP_VOLUME}, {0, 1, RP_VOLUME}, {2, 1, RP_VOLUME}};
    static const rp_step together[] = {{4, 0, RP_VOLUME}, {1, 0, RP_VOLUME}};
    static const rp_step no_room[] = {{2, 0, RP_VOLUME}, {3, 0, RP_VOLUME}, {0, 0, RP_VOLUME}};
    rp_placement at[5];
    rp_refused refused;
    check(rectangle_pack_told(two_bins, 2, &by_hand, done, 3, at, 5, &refused) == RP_DONE, "by hand: steps are not done");
    check(is_at(&at[0], 1, 0, 0) && is_at(&at[3], 0, 0, 0) && is_at(&at[4], 1, 3, 0), "by hand: a box is elsewhere");
    check(is_at(&at[1], RP_LEFT_BIN, 0, 0) && is_at(&at[2], RP_LEFT_BIN, 0, 0), "by hand: a group is not left");
    check(rectangle_pack_told(two_bins, 2, &by_hand, done, 0, at, 5, &refused) == RP_DONE, "by hand: no steps are refused");
    check_refused(unknown, 3, 1, RP_STEP_UNKNOWN_BIN);
    check_refused(twice, 3, 2, RP_STEP_NAMED_TWICE);
    check_refused(together, 2, 1, RP_STEP_EXCLUDED);
    check_refused(no_room, 3, 2, RP_STEP_NO_ROOM);
}

/* The same in a session, whose bin has the id that says of a placement that it is left. */
static void check_session_by_hand(void)
{
    static const rp_step steps[] = {{2, RP_LEFT_BIN, RP_VOLUME}, {0, RP_LEFT_BIN, RP_VOLUME}};
    rp_outstanding at[5];
    rp_refused refused;
    rp_session session = RP_NO_SESSION;
    begin(&session);
    check(rectangle_pack_session_add_bin(&session, RP_LEFT_BIN, 10, 10, 1) == RP_DONE, "by hand: no bin is added");
    check(rectangle_pack_session_pack_told(&session, &by_hand, steps, 2, at, 5, &refused) == RP_DONE, "by hand: steps are not done");
    check(at[1].number == 0 && is_at(&at[1].placement, RP_LEFT_BIN, 0, 0), "by hand: the first step is not done first");
    check(at[2].number == 1 && is_at(&at[2].placement, RP_LEFT_BIN, 2, 0), "by hand: a group is not together");
    check(at[0].number == 2 && is_at(&at[0].placement, RP_LEFT_BIN, 7, 0), "by hand: the second step is another");
    check(at[3].number == RP_LEFT_NUMBER && at[4].number == RP_LEFT_NUMBER, "by hand: what no step names has a number");
    check(is_at(&at[3].placement, RP_LEFT_BIN, 0, 0) && is_at(&at[4].placement, RP_LEFT_BIN, 0, 0), "by hand: a box is not left");
    check(rectangle_pack_session_next_number(&session) == 3, "by hand: what is left uses numbers up");
    check(rectangle_pack_session_pack_told(&session, &by_hand, steps, 2, at, 5, &refused) == RP_STEP_REFUSED, "by hand: there is room");
    check(refused.step == 0 && refused.fault == RP_STEP_NO_ROOM, "by hand: another step is refused");
    check(rectangle_pack_session_next_number(&session) == 3, "by hand: a refusal uses numbers up");
    rectangle_pack_session_free(&session);
}

int main(void)
{
    static tally once, sessions;
    long wants = 0;
    for (int i = 0; i < CALLS; i++)
        tell_once(&once);
    for (int i = 0; i < SESSIONS; i++)
        tell_session(&sessions);
    for (int i = 0; i < REFUSED; i++)
        wants += refuse_once();
    check(wants > 1000, "memory is refused too seldom");
    check_tally(&once);
    check_tally(&sessions);
    check_by_hand();
    check_session_by_hand();
    check(blocks == 0, "memory is not given back");
    printf("as told: %ld and %ld lists of steps done, once and in sessions; a step had no room %ld and %ld times; %ld requests refused\n",
           once.done, sessions.done, once.refused[RP_STEP_NO_ROOM], sessions.refused[RP_STEP_NO_ROOM], wants);
    return 0;
}
