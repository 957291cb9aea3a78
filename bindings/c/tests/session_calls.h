/* The commands that change a session, and how each is given by a call. To be included once in a program. */
#ifndef SESSION_CALLS_H
#define SESSION_CALLS_H

#include "session_account.h"
#include "session_placing.h"
#include "session_upkeep.h"

enum kind {
    ADD_BIN, PACK, PACK_COLLECTION, RELEASE, COALESCE, COALESCE_ALL, CLEAR_BIN, REMOVE_BIN, GROW_BIN, PLACE_AT, PLACE_BEST,
    PLACE_ANYWHERE, RELEASE_ALL, RECUT, PACK_FITTING, PACK_TOLD, KINDS
};

/* A command. The bin is an index in ids. Which number is released, pick chooses from those that were given by then, unless it
   is NEVER_GIVEN; and by how much a bin grows, from what keeps it small enough, unless it is TOO_MUCH. A section is joined with
   those of a range. A box is placed at a place; or the first of those that are asked for, where it fits best. Of the placements
   that are released together, each of so many picks chooses one. */
typedef struct command {
    enum kind kind;
    size_t bin;
    rp_bin size;
    request asked;
    uint64_t pick;
    size_t section, start, stop;
    uint32_t axis;
    rp_section place;
    numbers picks;
} command;

/* What a command answered, and after it the statistics of all bins, and a number made from all free sections. */
typedef struct answer {
    uint32_t status, chosen;
    size_t left;
    rp_refused refused;
    rp_outstanding places[ENTRIES + 1];
    rp_stats stats[BINS];
    uint64_t free;
} answer;

/* The number that no placement gets. */
static const uint64_t NEVER_GIVEN = UINT64_MAX;

static int packs(const command *it)
{
    return it->kind == PACK || it->kind == PACK_COLLECTION || it->kind == PACK_FITTING || it->kind == PACK_TOLD;
}

static enum way way_of(const command *it)
{
    switch (it->kind) {
    case PACK:
        return BOXES_ALONE;
    case PACK_FITTING:
        return WHAT_FITS;
    case PACK_TOLD:
        return AS_TOLD;
    default:
        return ALL_OF_IT;
    }
}

/* One of the numbers that were given, or of the next two; or one that never is. */
static uint64_t number_to_release(const command *it, const account *now)
{
    return it->pick == NEVER_GIVEN ? NEVER_GIVEN : it->pick % (now->next + 2);
}

/* Numbers of placements that are outstanding, but for what no placement gets. Without placements these are the next ones. */
static numbers numbers_to_release(const command *it, const account *now)
{
    numbers all = it->picks;
    for (size_t i = 0; i < all.count; i++)
        if (all.list[i] != NEVER_GIVEN)
            all.list[i] = now->count > 0 ? now->placed[all.list[i] % now->count].at.number : now->next + i;
    return all;
}

/* By how many cells a bin grows. */
static uint32_t growth_of(const command *it, const account *now)
{
    return growth(&now->bins[it->bin], it->axis, it->pick);
}

static uint32_t pack(rp_session *session, const command *it, answer *said)
{
    const request *asked = &it->asked;
    const rp_collection *all = guarded_collection(asked);
    size_t size = asked->places * sizeof *said->places;
    rp_outstanding *places = guarded_untouched(PLACEMENTS_LIST, size);
    uint32_t *chosen = guarded_untouched(CHOSEN, sizeof *chosen), status;
    if (it->kind == PACK) {
        status = rectangle_pack_session_pack(session, all->boxes, all->box_count, places, asked->places);
        if (status == RP_DONE)
            *chosen = RP_VOLUME;
    } else {
        status = rectangle_pack_session_pack_collection(session, all, asked->heuristic, places, asked->places, chosen);
    }
    check_kept(asked, all);
    check_written(status, places, size, chosen, sizeof *chosen);
    memcpy(said->places, places, size);
    said->chosen = *chosen;
    return status;
}

static uint32_t pack_fitting(rp_session *session, const command *it, answer *said)
{
    const request *asked = &it->asked;
    const rp_collection *all = guarded_collection(asked);
    size_t size = asked->places * sizeof *said->places;
    rp_outstanding *places = guarded_untouched(PLACEMENTS_LIST, size);
    rp_fitted *fitted = guarded_untouched(CHOSEN, sizeof *fitted);
    uint32_t status = rectangle_pack_session_pack_fitting(session, all, asked->heuristic, places, asked->places, fitted);
    check_kept(asked, all);
    check_written(status, places, size, fitted, sizeof *fitted);
    memcpy(said->places, places, size);
    said->chosen = fitted->heuristic;
    said->left = fitted->left;
    return status;
}

static uint32_t pack_told(rp_session *session, const command *it, answer *said)
{
    const request *asked = &it->asked;
    const rp_collection *all = guarded_collection(asked);
    const rp_step *steps = guarded_steps(asked);
    size_t size = asked->places * sizeof *said->places;
    rp_outstanding *places = guarded_untouched(PLACEMENTS_LIST, size);
    rp_refused *refused = guarded_untouched(CHOSEN, sizeof *refused);
    uint32_t status = rectangle_pack_session_pack_told(session, all, steps, asked->step_count, places, asked->places, refused);
    check_kept(asked, all);
    check_told(status, places, size, refused);
    check(!memcmp(steps, asked->steps, asked->step_count * sizeof *steps), "steps are changed");
    memcpy(said->places, places, size);
    said->refused = *refused;
    return status;
}

/* Places a box where it fits best, in one bin or in any. */
static uint32_t fit(rp_session *session, const command *it, answer *said)
{
    const rp_box *box = guarded_copy(BOXES_LIST, it->asked.boxes, sizeof *box);
    rp_outstanding *place = guarded_untouched(PLACEMENTS_LIST, sizeof *place);
    uint32_t heuristic = it->asked.heuristic, status;
    if (it->kind == PLACE_BEST)
        status = rectangle_pack_session_place_best(session, ids[it->bin], box, heuristic, place);
    else
        status = rectangle_pack_session_place_best_anywhere(session, box, heuristic, place);
    check(!memcmp(box, it->asked.boxes, sizeof *box), "a box is changed");
    said->places[0] = *place;
    return status;
}

static uint32_t release_all(rp_session *session, const command *it, const account *now)
{
    numbers all = numbers_to_release(it, now);
    size_t size = all.count * sizeof *all.list;
    const uint64_t *list = guarded_copy(NUMBERS_LIST, all.list, size);
    uint32_t status = rectangle_pack_session_release_all(session, list, all.count);
    check(!memcmp(list, all.list, size), "numbers are changed");
    return status;
}

static uint32_t perform(rp_session *session, const command *it, const account *now, answer *said)
{
    memset(said->places, UNTOUCHED, sizeof said->places);
    memset(&said->chosen, UNTOUCHED, sizeof said->chosen);
    memset(&said->left, UNTOUCHED, sizeof said->left);
    memset(&said->refused, UNTOUCHED, sizeof said->refused);
    refused = 0;
    switch (it->kind) {
    case ADD_BIN:
        return rectangle_pack_session_add_bin(session, ids[it->bin], it->size.width, it->size.height, it->size.depth);
    case RELEASE:
        return rectangle_pack_session_release(session, number_to_release(it, now));
    case COALESCE:
        return rectangle_pack_session_coalesce(session, ids[it->bin], it->section, it->start, it->stop);
    case COALESCE_ALL:
        return rectangle_pack_session_coalesce_all(session, ids[it->bin]);
    case CLEAR_BIN:
        return rectangle_pack_session_clear_bin(session, ids[it->bin]);
    case REMOVE_BIN:
        return rectangle_pack_session_remove_bin(session, ids[it->bin]);
    case GROW_BIN:
        return rectangle_pack_session_grow_bin(session, ids[it->bin], it->axis, growth_of(it, now));
    case PLACE_AT:
        return rectangle_pack_session_place_at(session, ids[it->bin], &it->place, &said->places[0].number);
    case PLACE_BEST:
    case PLACE_ANYWHERE:
        return fit(session, it, said);
    case RELEASE_ALL:
        return release_all(session, it, now);
    case RECUT:
        return rectangle_pack_session_recut(session, ids[it->bin]);
    case PACK_FITTING:
        return pack_fitting(session, it, said);
    case PACK_TOLD:
        return pack_told(session, it, said);
    default:
        return pack(session, it, said);
    }
}

#endif
