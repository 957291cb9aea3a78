/* The commands of session_calls.h, each held against the account: the status, what is written, and what is then in the
   session. To be included once in a program. */
#ifndef SESSION_COMMANDS_H
#define SESSION_COMMANDS_H

#include "session_calls.h"
#include "session_reading.h"

/* What has to become of a session by a command that is done: of a packing, its placements; and the free sections of all bins,
   but for those of a bin in which all are joined or which is cut anew: which ones these are is not known. */
typedef struct outlook {
    packing packed;
    shelf left;
    sections free[BINS];
} outlook;

/* How many sections the joins of one section took up. */
static long taken_up;

/* The bin into which a box goes where it fits best, or BINS for any. */
static size_t named_bin(const command *it)
{
    return it->kind == PLACE_BEST ? it->bin : BINS;
}

/* The status that the account calls for, and of a packing also what it places and leaves. */
static uint32_t expected(const command *it, const account *now, outlook *next)
{
    numbers all = numbers_to_release(it, now);
    switch (it->kind) {
    case ADD_BIN:
        return now->has_bin[it->bin] ? RP_DUPLICATE_BIN : RP_DONE;
    case RELEASE:
        return position_of(now, number_to_release(it, now)) < now->count ? RP_DONE : RP_UNKNOWN_PLACEMENT;
    case COALESCE:
    case COALESCE_ALL:
    case CLEAR_BIN:
        return now->has_bin[it->bin] ? RP_DONE : RP_UNKNOWN_BIN;
    case REMOVE_BIN:
        return status_of_removing(now, it->bin);
    case GROW_BIN:
        return status_of_growing(now, it->bin, it->axis, growth_of(it, now));
    case PLACE_AT:
        return status_of_placing(now, it->bin, &it->place);
    case PLACE_BEST:
    case PLACE_ANYWHERE:
        return status_of_fitting(now, named_bin(it), &it->asked);
    case RELEASE_ALL:
        return status_of_releasing(now, &all);
    case RECUT:
        return status_of_recutting(now, it->bin);
    default:
        shelve(&next->left, now);
        return answer_of(&it->asked, way_of(it), &next->left, &next->packed);
    }
}

static int takes_no_memory(const command *it)
{
    return it->kind == COALESCE || it->kind == COALESCE_ALL || it->kind == REMOVE_BIN;
}

/* Whether a command may want memory: to join sections or to take out a bin takes none, nor to release nothing, or to pack nothing
   where nothing is excluded. */
static int may_want(const command *it)
{
    const request *asked = &it->asked;
    if (takes_no_memory(it) || (it->kind == RELEASE_ALL && it->picks.count == 0))
        return 0;
    return !packs(it) || asked->box_count + asked->exclusion_count > 0;
}

/* The free sections of all bins after a command that is done, but for those of a bin that is cut anew. */
static void look_ahead(const command *it, const account *now, outlook *next)
{
    for (size_t i = 0; i < BINS; i++)
        copy_sections(&next->free[i], packs(it) && now->has_bin[i] ? free_on(&next->left, ids[i]) : &now->free[i]);
    if (it->kind == ADD_BIN)
        make_whole(&next->free[it->bin], &it->size);
    if (it->kind == CLEAR_BIN)
        make_whole(&next->free[it->bin], &now->bins[it->bin]);
    if (it->kind == REMOVE_BIN)
        next->free[it->bin].count = 0;
    if (it->kind == GROW_BIN)
        add_what_is_new(&next->free[it->bin], &now->bins[it->bin], it->axis, growth_of(it, now));
    if (it->kind == PLACE_AT)
        cut_round(&next->free[it->bin], &it->place);
    if (it->kind == PLACE_BEST || it->kind == PLACE_ANYWHERE) {
        best_place best = place_that_fits(now, named_bin(it), &it->asked.boxes[0]);
        fit_in(&next->free[best.bin], &best, &it->asked);
    }
    if (it->kind == RELEASE_ALL) {
        numbers all = numbers_to_release(it, now);
        free_all(next->free, now, &all);
    }
    if (it->kind == RELEASE) {
        const standing *released = &now->placed[position_of(now, number_to_release(it, now))];
        rp_section section = section_of(released);
        if (has_cells(&section))
            add_section(&next->free[index_of(released->at.placement.bin)], &section);
    }
    if (it->kind == COALESCE) {
        size_t before = next->free[it->bin].count;
        join_range(&next->free[it->bin], it->section, it->start, it->stop);
        taken_up += (long)(before - next->free[it->bin].count);
    }
}

static void check_same_sections(const sections *one, const sections *other)
{
    check(one->count == other->count, "how many free sections there are after a command");
    check(!memcmp(one->list, other->list, one->count * sizeof *one->list), "the free sections after a command");
}

/* The free sections that were read after a command that was done. */
static void check_sections(const command *it, const outlook *next, const sections *after)
{
    for (size_t i = 0; i < BINS; i++) {
        if (it->kind == COALESCE_ALL && i == it->bin) {
            check(after[i].count <= next->free[i].count, "coalescing adds sections");
            check(!share_a_face(&after[i]), "after coalescing two sections share a face");
            continue;
        }
        if (it->kind == RECUT && i == it->bin)
            continue;
        check_same_sections(&next->free[i], &after[i]);
    }
}

/* What is written of an entry that is left. A bin may have the id RP_LEFT_BIN, but no placement has the number. */
static const rp_outstanding WRITTEN_AS_LEFT = {RP_LEFT_NUMBER, {RP_LEFT_BIN, 0, 0, 0}};

/* Groups are together, or left, and those that are excluded are apart. */
static void check_groups_packed(const request *asked, const answer *said)
{
    uint32_t bins[ENTRIES];
    for (size_t i = 0; i < entries_of(asked); i++) {
        const rp_outstanding *it = &said->places[i];
        bins[i] = it->number == RP_LEFT_NUMBER ? RP_LEFT_BIN : (uint32_t)index_of(it->placement.bin);
    }
    check_groups(asked, bins);
}

/* The placements are those of the rule; and the numbers are the next ones, in the order of packing. */
static void check_packed(const command *it, const account *now, const packing *right, const answer *said)
{
    check_groups_packed(&it->asked, said);
    check(it->kind == PACK_TOLD || said->chosen == right->heuristic, "the heuristic is not that of the rule");
    check(it->kind != PACK_FITTING || said->left == left_by(right), "how many are left is another number");
    for (size_t i = 0; i < right->count; i++) {
        const rp_placement *at = &said->places[i].placement;
        rp_section place = section_at(at, &right->entries[i].box);
        if (right->entries[i].is_left) {
            check(!memcmp(&said->places[i], &WRITTEN_AS_LEFT, sizeof WRITTEN_AS_LEFT), "an entry that is left is written otherwise");
            continue;
        }
        check(said->places[i].number == now->next + right->entries[i].turn, "the number of a placement");
        check(index_of(at->bin) < BINS && are_same(&place, &right->entries[i].at), "a placement is not where the rule has it");
    }
}

/* Takes up in the account what a packing placed. Its bins are those of the shelf. */
static void take_up_packing(account *now, const outlook *next, const answer *said)
{
    const packing *packed = &next->packed;
    for (size_t i = 0; i < packed->count; i++) {
        const entry *it = &packed->entries[i];
        if (it->is_left)
            continue;
        check(said->places[i].placement.bin == next->left.ids[it->bin], "the bin of a placement is not that of the rule");
        now->placed[now->count + it->turn] = (standing){said->places[i], it->box, (uint32_t)i};
    }
    now->count += packed->placed;
    now->next += packed->placed;
}

/* Takes up in the account what was done. */
static void take_up(account *now, const command *it, const outlook *next, const answer *said)
{
    numbers all = numbers_to_release(it, now);
    best_place best;
    switch (it->kind) {
    case ADD_BIN:
        now->has_bin[it->bin] = 1;
        now->bins[it->bin] = it->size;
        break;
    case RELEASE:
        strike(now, position_of(now, number_to_release(it, now)));
        break;
    case COALESCE:
    case COALESCE_ALL:
        now->was_coalesced[it->bin] = 1;
        break;
    case CLEAR_BIN:
        empty_bin(now, it->bin);
        break;
    case REMOVE_BIN:
        now->has_bin[it->bin] = now->was_coalesced[it->bin] = 0;
        now->bins[it->bin] = (rp_bin){0, 0, 0};
        break;
    case GROW_BIN:
        *side_of(&now->bins[it->bin], it->axis) += growth_of(it, now);
        break;
    case PLACE_AT:
        take_up_placing(now, it->bin, &it->place, said->places[0].number);
        break;
    case PLACE_BEST:
    case PLACE_ANYWHERE:
        best = place_that_fits(now, named_bin(it), &it->asked.boxes[0]);
        take_up_fitting(now, &best, &it->asked.boxes[0], &said->places[0]);
        break;
    case RELEASE_ALL:
        for (size_t i = 0; i < all.count; i++)
            strike(now, position_of(now, all.list[i]));
        break;
    case RECUT:
        break;
    default:
        check_packed(it, now, &next->packed, said);
        take_up_packing(now, next, said);
        break;
    }
}

/* A number made from what is free in all bins. */
static uint64_t number_of(const sections *free)
{
    uint64_t number = 14695981039346656037u;
    for (size_t i = 0; i < BINS; i++) {
        const unsigned char *bytes = (const unsigned char *)free[i].list;
        for (size_t j = 0; j < free[i].count * sizeof *free[i].list; j++)
            number = (number ^ bytes[j]) * 1099511628211u;
    }
    return number;
}

/* Holds a call that was done against the account. */
static void settle_done(rp_session *session, const command *it, account *now, outlook *next, answer *said)
{
    static sections after[BINS];
    look_ahead(it, now, next);
    take_up(now, it, next, said);
    read_session(session, now, said->stats, after);
    check_sections(it, next, after);
    if (it->kind == RECUT)
        check_cut_anew(now, it->bin, &after[it->bin]);
    said->free = number_of(after);
    memcpy(now->stats, said->stats, sizeof now->stats);
    for (size_t i = 0; i < BINS; i++)
        copy_sections(&now->free[i], &after[i]);
}

/* Nothing is written, and the session is as it was. */
static void check_nothing_done(rp_session *session, const account *now, answer *said)
{
    static sections after[BINS];
    check(is_untouched(said->places, sizeof said->places), "something is written");
    read_session(session, now, said->stats, after);
    check(!memcmp(said->stats, now->stats, sizeof now->stats), "a call that is not done changes the session");
    for (size_t i = 0; i < BINS; i++)
        check_same_sections(&now->free[i], &after[i]);
    said->free = number_of(after);
}

/* One command. Where memory is wanted, the session is as it was, and the same call is made again with all memory. Whether
   memory was wanted. */
static int obey(rp_session *session, const command *it, account *now, answer *said)
{
    static outlook next;
    long before = requests;
    uint32_t right = expected(it, now, &next);
    said->status = perform(session, it, now, said);
    int wanted = said->status == RP_OUT_OF_MEMORY;
    check(!takes_no_memory(it) || requests == before, "a command that needs no memory takes some");
    if (wanted) {
        check(refused && may_want(it), "want of memory is answered where all was there");
        check_nothing_done(session, now, said);
        refuse_nothing();
        said->status = perform(session, it, now, said);
    }
    check(said->status == right, "the status of a command");
    if (right == RP_STEP_REFUSED)
        check(are_same_steps(&said->refused, &next.packed.refused), "another step is refused than by the rule");
    if (said->status == RP_DONE)
        settle_done(session, it, now, &next, said);
    else
        check_nothing_done(session, now, said);
    return wanted;
}

/* Makes a session; where memory is wanted, again with all memory. Whether memory was wanted. */
static int begin(rp_session *session)
{
    long before = blocks;
    uint32_t status = rectangle_pack_session_new(session);
    int wanted = status == RP_OUT_OF_MEMORY;
    if (wanted) {
        check(refused, "want of memory is answered where all was there");
        check(!session->at && blocks == before, "a handle without a session is changed");
        refuse_nothing();
        status = rectangle_pack_session_new(session);
    }
    check(status == RP_DONE && session->at, "no session is made");
    return wanted;
}

#endif
