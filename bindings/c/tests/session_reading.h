/* The calls that read a session, each asked for all bins, also for those that are not there, and held against the account. To
   be included once in a program. */
#ifndef SESSION_READING_H
#define SESSION_READING_H

#include <limits.h>

#include "session_account.h"
#include "session_plans.h"

/* How often an array was too short, there was no plan, and a plan wanted memory. */
static long short_arrays, no_plans, plans_wanting;

/* A call that writes a list. Where it is one of the session, the bin is nothing to it. */
typedef uint32_t (*list_call)(rp_session *session, uint32_t bin, void *array, size_t length, size_t *count);

/* What is asked, and an array of such entries, which has room for two more than any list has. */
typedef struct question {
    list_call call;
    rp_session *session;
    uint32_t bin;
    void *array;
    size_t entry;
} question;

static uint32_t call_bins(rp_session *session, uint32_t bin, void *array, size_t length, size_t *count)
{
    (void)bin;
    return rectangle_pack_session_bins(session, array, length, count);
}

static uint32_t call_sections(rp_session *session, uint32_t bin, void *array, size_t length, size_t *count)
{
    return rectangle_pack_session_free_sections(session, bin, array, length, count);
}

static uint32_t call_outstanding(rp_session *session, uint32_t bin, void *array, size_t length, size_t *count)
{
    (void)bin;
    return rectangle_pack_session_outstanding(session, array, length, count);
}

static uint32_t call_outstanding_in(rp_session *session, uint32_t bin, void *array, size_t length, size_t *count)
{
    return rectangle_pack_session_outstanding_in(session, bin, array, length, count);
}

static uint32_t call_plan(rp_session *session, uint32_t bin, void *array, size_t length, size_t *count)
{
    return rectangle_pack_session_cut_plan(session, bin, array, length, count);
}

/* Asks with an array of this length. Behind the list it is untouched, and where there is no list all of it; and the count is,
   unless a list was done or too long. */
static uint32_t ask(const question *it, size_t length, size_t *count)
{
    unsigned char *bytes = it->array;
    memset(bytes, UNTOUCHED, (length + 1) * it->entry);
    memset(count, UNTOUCHED, sizeof *count);
    uint32_t status = it->call(it->session, it->bin, bytes, length, count);
    size_t written = status == RP_DONE ? *count : 0;
    check(written <= length, "a list is longer than its array");
    check(is_untouched(bytes + written * it->entry, (length + 1 - written) * it->entry), "something is written past a list");
    check(status != RP_SHORT_ARRAY || *count > length, "an array is too short for a list that it can hold");
    check(status == RP_DONE || status == RP_SHORT_ARRAY || is_untouched(count, sizeof *count), "a count is written");
    short_arrays += status == RP_SHORT_ARRAY;
    return status;
}

static void ask_long_enough(const question *it, size_t length, size_t right)
{
    size_t count;
    check(ask(it, length, &count) == RP_DONE && count == right, "a list does not go into an array that holds it");
}

static void ask_too_short(const question *it, size_t length, size_t right)
{
    size_t count;
    check(ask(it, length, &count) == RP_SHORT_ARRAY && count == right, "an array that is too short is not refused");
}

/* Asks with arrays that are too short, too long and right, in this order. So in the end the list is in the array. How long it
   is. The status is the right one where the array is long enough. */
static size_t ask_each(const question *it, uint32_t right)
{
    size_t count = 0, length;
    if (right != RP_DONE) {
        for (length = 0; length < 2; length++)
            check(ask(it, length, &count) == right, "the status of a list that is not there");
        return 0;
    }
    ask(it, 0, &count);
    length = count;
    if (length > 0) {
        ask_too_short(it, 0, length);
        ask_too_short(it, length - 1, length);
    }
    ask_long_enough(it, length + 1, length);
    ask_long_enough(it, length, length);
    return length;
}

/* The statistics of one bin are the sums of the account. */
static void check_sums(const account *now, size_t bin, const rp_stats *stats)
{
    rp_section whole = whole_of(&now->bins[bin]);
    uint64_t placed = 0;
    size_t count = 0;
    for (size_t i = 0; i < now->count; i++) {
        if (now->placed[i].at.placement.bin == ids[bin]) {
            rp_section it = section_of(&now->placed[i]);
            placed += cells_of(&it);
            count++;
        }
    }
    check(!stats->bin_volume.high && !stats->free_volume.high && !stats->placed_volume.high, "a small volume is large");
    check(stats->bin_volume.low == cells_of(&whole), "the volume of a bin");
    check(stats->placed_volume.low == placed, "the placed volume");
    check(stats->placed_volume.low + stats->free_volume.low == stats->bin_volume.low, "free and placed are not the bin");
    check(stats->placements == count, "how many placements there are");
}

/* Asks for the statistics of a bin; where it is not there, nothing is written. */
static void read_stats(rp_session *session, const account *now, size_t bin, rp_stats *stats)
{
    memset(stats, UNTOUCHED, sizeof *stats);
    uint32_t status = rectangle_pack_session_stats(session, ids[bin], stats);
    check(status == (now->has_bin[bin] ? RP_DONE : RP_UNKNOWN_BIN), "the status of stats");
    if (now->has_bin[bin])
        check_sums(now, bin, stats);
    else
        check(is_untouched(stats, sizeof *stats), "stats of no bin are written");
}

static void read_coalesced(rp_session *session, const account *now, size_t bin)
{
    uint32_t coalesced;
    memset(&coalesced, UNTOUCHED, sizeof coalesced);
    uint32_t status = rectangle_pack_session_was_coalesced(session, ids[bin], &coalesced);
    check(status == (now->has_bin[bin] ? RP_DONE : RP_UNKNOWN_BIN), "the status of was_coalesced");
    if (now->has_bin[bin])
        check(coalesced == (uint32_t)now->was_coalesced[bin], "whether a bin was coalesced");
    else
        check(is_untouched(&coalesced, sizeof coalesced), "whether no bin was coalesced is written");
}

/* The ids rise, and are those of the bins that were added. */
static void read_bins(rp_session *session, const account *now)
{
    static uint32_t list[BINS + 2];
    size_t count = ask_each(&(question){call_bins, session, 0, list, sizeof *list}, RP_DONE), added = 0;
    for (size_t i = 0; i < BINS; i++)
        added += (size_t)now->has_bin[i];
    check(count == added, "how many bins there are");
    for (size_t i = 0; i < count; i++) {
        size_t bin = index_of(list[i]);
        check(bin < BINS && now->has_bin[bin], "a bin was not added");
        check(i == 0 || list[i - 1] < list[i], "the ids of bins do not rise");
    }
}

static void check_standing(const rp_standing *it, const standing *known)
{
    rp_section place = section_of(known);
    check(it->number == known->at.number, "the number of an outstanding placement");
    check(it->index == known->index, "the index of an outstanding placement");
    check(it->bin == known->at.placement.bin, "the bin of an outstanding placement");
    check(are_same(&it->section, &place), "where an outstanding placement stands");
}

static void read_outstanding(rp_session *session, const account *now)
{
    static rp_standing list[STANDING + 2];
    size_t count = ask_each(&(question){call_outstanding, session, 0, list, sizeof *list}, RP_DONE);
    check(count == now->count, "how many placements are outstanding");
    for (size_t i = 0; i < count; i++) {
        check_standing(&list[i], &now->placed[i]);
        check(i == 0 || list[i - 1].number < list[i].number, "the numbers of placements do not rise");
    }
}

/* Those of one bin are the others left out. */
static void read_outstanding_in(rp_session *session, const account *now, size_t bin)
{
    static rp_standing list[STANDING + 2];
    uint32_t right = now->has_bin[bin] ? RP_DONE : RP_UNKNOWN_BIN;
    size_t count = ask_each(&(question){call_outstanding_in, session, ids[bin], list, sizeof *list}, right), at = 0;
    for (size_t i = 0; i < now->count; i++) {
        if (now->placed[i].at.placement.bin != ids[bin])
            continue;
        check(at < count, "a placement of a bin is not told");
        check_standing(&list[at++], &now->placed[i]);
    }
    check(at == count, "a placement of another bin is told");
}

static void read_sections(rp_session *session, const account *now, size_t bin, sections *free)
{
    uint32_t right = now->has_bin[bin] ? RP_DONE : RP_UNKNOWN_BIN;
    free->count = ask_each(&(question){call_sections, session, ids[bin], free->list, sizeof *free->list}, right);
}

/* Asks for the plan of a bin with each request for memory refused in turn, alone and with all after it. A plan that is not
   there for want of memory is not written, however long the array is. */
static void refuse_plan(const question *it, uint32_t right, const plan *own)
{
    size_t length = right == RP_DONE ? own->count : 0, count;
    long before = blocks;
    refuse_requests(NONE, NONE);
    check(ask(it, length, &count) == right, "the status of a plan");
    long all = requests;
    for (long request = 0; request < all; request++) {
        refuse_requests(request, LONG_MAX);
        check(ask(it, length, &count) == RP_OUT_OF_MEMORY, "want of memory is not answered");
        refuse_requests(request, request);
        uint32_t alone = ask(it, length, &count);
        check(alone == RP_OUT_OF_MEMORY || alone == right, "a refused request changes a status");
        if (alone == RP_DONE)
            check(count == length && !memcmp(it->array, own->steps, length * it->entry), "a refused request changes a plan");
        refuse_requests(request, LONG_MAX);
        check(ask(it, 0, &count) == RP_OUT_OF_MEMORY, "want of memory is not answered to a short array");
        plans_wanting++;
    }
    refuse_nothing();
    check(blocks == before, "memory of a plan is not given back");
}

/* The plan of a bin is the harness's own, and it is not there only after a call that joins sections. */
static void read_plan(rp_session *session, const account *now, size_t bin, const sections *free)
{
    static rp_cut_step list[STEPS + 2];
    static plan own;
    question it = {call_plan, session, ids[bin], list, sizeof *list};
    uint32_t right = RP_UNKNOWN_BIN;
    if (now->has_bin[bin])
        right = make_plan(&own, now, free, bin) ? RP_DONE : RP_NO_PLAN;
    size_t count = ask_each(&it, right);
    if (right == RP_DONE)
        check(count == own.count && !memcmp(list, own.steps, count * sizeof *list), "a plan is not that of the header");
    if (right == RP_NO_PLAN)
        check(now->was_coalesced[bin], "a bin that was not coalesced has no plan");
    no_plans += right == RP_NO_PLAN;
    refuse_plan(&it, right, &own);
}

/* Reads all that can be read but the plans, of the placements of single bins those of one, and holds it against the account. No memory
   is taken. */
static void read_session(rp_session *session, const account *now, rp_stats *stats, sections *free)
{
    long before = requests;
    read_bins(session, now);
    read_outstanding(session, now);
    read_outstanding_in(session, now, now->count % BINS);
    check(rectangle_pack_session_next_number(session) == now->next, "the next number");
    for (size_t i = 0; i < BINS; i++) {
        read_stats(session, now, i, &stats[i]);
        read_coalesced(session, now, i);
        read_sections(session, now, i, &free[i]);
        check(!now->has_bin[i] || stats[i].free_sections == free[i].count, "how many free sections there are");
    }
    check(requests == before, "reading takes memory");
    check_cells(now, free);
}

#endif
