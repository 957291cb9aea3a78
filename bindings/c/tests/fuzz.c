/* A target for libFuzzer: from bytes it draws calls, of all kinds that the header has, to several sessions and to none, parts of
   which sessions are to be made, and boxes of which straight cuts are asked, and now and then has a request for memory refused. Each
   call is held against the account of its session and against the packing rule, as the harnesses do it. tools/fuzz_c.sh builds and
   runs it. */
#include <limits.h>

#include "one_shot.h"
#include "rectangle_pack.h"
#include "refusing.h"
#include "searching_once.h"
#include "session_draws.h"
#include "session_restoring.h"
#include "session_searching.h"
#include "told_draws.h"
#include "straight_cuts.h"

enum { SESSIONS = 3, STEPS_OF_INPUT = 60 };

/* What is done in a step: a command of a session, or one of these. */
enum step { PLAN = KINDS, PACK_ONCE, FREE, AGAIN, RESTORE, CUT, FIT_ONCE, TELL_ONCE, SEARCH_ONCE, SEARCH };

/* A session, and what is known of it. Where it is not open, its handle is as RP_NO_SESSION makes it. */
typedef struct known_session {
    rp_session handle;
    account now;
    int is_open, commands;
} known_session;

static known_session known[SESSIONS];

/* In one of four steps requests for memory are refused, from a drawn one on: it alone, or all after it too. */
static void draw_refusals(long *first, long *last)
{
    *first = *last = NONE;
    if (within(0, 3) != 3)
        return;
    *first = (long)within(0, 255);
    *last = within(0, 1) ? *first : LONG_MAX;
}

static void open_session(known_session *it)
{
    it->handle = (rp_session)RP_NO_SESSION;
    open_account(&it->now);
    begin(&it->handle);
    it->is_open = 1;
    it->commands = 0;
}

static void free_session(known_session *it)
{
    if (it->is_open)
        rectangle_pack_session_free(&it->handle);
    check(!it->handle.at, "a freed handle is not empty");
    it->is_open = 0;
}

/* The handle is moved to another place, and so is the session. */
static void move_session(known_session *it)
{
    rp_session moved = it->handle;
    memset(&it->handle, UNTOUCHED, sizeof it->handle);
    it->handle = moved;
}

static void give_command(known_session *it, enum kind kind, uint32_t depth)
{
    static answer said;
    static command drawn;
    draw_command(&drawn, kind, depth);
    obey(&it->handle, &drawn, &it->now, &said);
    it->commands++;
}

/* The plan of a bin, with refusals of its own. */
static void ask_plan(known_session *it)
{
    size_t bin = within(0, BINS - 1);
    refuse_nothing();
    read_plan(&it->handle, &it->now, bin, &it->now.free[bin]);
}

static enum way way_of_step(int what)
{
    switch (what) {
    case FIT_ONCE:
        return WHAT_FITS;
    case TELL_ONCE:
        return AS_TOLD;
    default:
        return within(0, 1) ? ALL_OF_IT : BOXES_ALONE;
    }
}

static void pack_once(long first, long last, uint32_t depth, enum way way)
{
    static const uint32_t indices[BINS] = {0, 1, 2, 3};
    static input drawn;
    static reply right, said;
    uint32_t box_depth = depth < LONGEST ? depth : LONGEST;
    memset(&drawn, 0, sizeof drawn);
    drawn.way = way;
    drawn.bin_count = within(0, BINS);
    for (size_t i = 0; i < drawn.bin_count; i++) {
        drawn.bins[i].width = within(0, SIDE);
        drawn.bins[i].height = within(1, SIDE);
        drawn.bins[i].depth = within(1, depth);
    }
    if (way == AS_TOLD)
        draw_told(&drawn.asked, BOXES, MEMBERS, box_depth, indices, drawn.bin_count);
    else if (way != BOXES_ALONE)
        draw_collection(&drawn.asked, BOXES, MEMBERS, box_depth);
    else
        draw_boxes(&drawn.asked, BOXES, box_depth);
    reply_by_rule(&drawn, &right);
    if (call_once(&drawn, first, last, &said) == RP_OUT_OF_MEMORY)
        call_once(&drawn, NONE, NONE, &said);
    check_reply(&drawn, &right, &said);
}

/* A search in one call, and the same in pieces, with refusals. */
static void search_for(long first, long last)
{
    static sought drawn;
    static found right, said;
    draw_sought(&drawn);
    search_once(&drawn, 0, NONE, NONE, &right);
    check_search(&drawn, &right);
    if (search_once(&drawn, 1, first, last, &said) == RP_OUT_OF_MEMORY)
        search_once(&drawn, 1, NONE, NONE, &said);
    check_in_pieces(&drawn.wants, &drawn.in.asked, &right, &said);
}

/* A search in a session counts as a command. */
static void search_in(known_session *it, long first, long last, uint32_t depth)
{
    static request asked;
    static found said;
    wanted wants;
    draw_collection(&asked, MOST_BOXES, MOST_MEMBERS, depth < LONGEST ? depth : LONGEST);
    draw_wanted(&wants, ids, BINS);
    search_session(&it->handle, &it->now, &wants, &asked, (int)within(0, 1), (refusals){first, last}, &said);
    it->commands++;
}

static void take_step(uint32_t depth)
{
    static const int steps[] = {ADD_BIN, PACK, PACK_COLLECTION, RELEASE, COALESCE, COALESCE_ALL, PLAN, PACK_ONCE, FREE,
                                CLEAR_BIN, REMOVE_BIN, GROW_BIN, PLACE_AT, PLACE_BEST, PLACE_ANYWHERE, RELEASE_ALL, RECUT,
                                AGAIN, RESTORE, CUT, PACK_FITTING, FIT_ONCE, PACK_TOLD, TELL_ONCE, SEARCH_ONCE, SEARCH};
    int what = steps[within(0, sizeof steps / sizeof *steps - 1)];
    known_session *it = &known[within(0, SESSIONS - 1)];
    long first, last;
    draw_refusals(&first, &last);
    if (what == PACK_ONCE || what == FIT_ONCE || what == TELL_ONCE) {
        pack_once(first, last, depth, way_of_step(what));
        return;
    }
    if (what == SEARCH_ONCE) {
        search_for(first, last);
        return;
    }
    refuse_requests(first, last);
    if (what == RESTORE || what == CUT) {
        if (what == RESTORE)
            restore_drawn();
        else
            cut_drawn();
        refuse_nothing();
        return;
    }
    if (what == FREE || it->commands == COMMANDS)
        free_session(it);
    if (what == FREE)
        return;
    if (!it->is_open)
        open_session(it);
    if (what == SEARCH)
        search_in(it, first, last, depth);
    else if (what == PLAN)
        ask_plan(it);
    else if (what == AGAIN)
        begin_again(&it->handle);
    else
        give_command(it, (enum kind)what, depth);
    refuse_nothing();
    move_session(it);
}

int LLVMFuzzerTestOneInput(const uint8_t *data, size_t size);

int LLVMFuzzerTestOneInput(const uint8_t *data, size_t size)
{
    long before = blocks;
    drawn_from = data;
    drawn_left = size;
    uint32_t depth = within(0, 1) ? SIDE : 1;
    for (int i = 0; i < STEPS_OF_INPUT && drawn_left > 0; i++)
        take_step(depth);
    for (int i = 0; i < SESSIONS; i++)
        free_session(&known[i]);
    check(blocks == before, "memory is not given back");
    return 0;
}
