/* Searches in bins of one call. To be included once in a program. */
#ifndef SEARCHING_ONCE_H
#define SEARCHING_ONCE_H

#include "packing_draws.h"
#include "searching.h"

/* What is searched for: bins and a collection, and what else is asked. */
typedef struct sought {
    input in;
    wanted wants;
} sought;

/* Bins, and a collection with which now and then something is wrong. */
static void draw_sought(sought *it)
{
    static const uint32_t indices[BINS] = {0, 1, 2, 3};
    uint32_t depth = within(0, 1) ? SIDE / 2 : 1;
    memset(it, 0, sizeof *it);
    it->in.bin_count = within(0, 19) ? within(1, BINS) : 0;
    for (size_t i = 0; i < it->in.bin_count; i++)
        it->in.bins[i] = (rp_bin){within(1, SIDE), within(1, SIDE), within(1, depth)};
    draw_collection(&it->in.asked, BOXES / 2, MEMBERS, depth < LONGEST ? depth : LONGEST);
    draw_wanted(&it->wants, indices, it->in.bin_count);
}

/* The placements with numbers in place of bins that say what is left. */
static void number_placements(found *said, const rp_location *placed, size_t count)
{
    for (size_t i = 0; said->status == RP_DONE && i < count; i++) {
        int is_left = placed[i].bin == RP_LEFT_BIN;
        said->placed[i] = (rp_standing){is_left ? RP_LEFT_NUMBER : i, is_left ? 0 : (uint32_t)i, placed[i].bin, placed[i].section};
    }
}

/* One call, or one in pieces. */
static void perform_search(const sought *it, int in_pieces, found *said)
{
    const request *asked = &it->in.asked;
    quest now = guarded_quest(&it->wants, asked);
    const rp_bin *bins = guarded_copy(BINS_LIST, it->in.bins, it->in.bin_count * sizeof *bins);
    size_t size = asked->places * sizeof(rp_location);
    rp_location *placed = guarded_untouched(PLACEMENTS_LIST, size);
    rp_searched *written = guarded_untouched(CHOSEN, sizeof *written);
    rp_search search = RP_NO_SEARCH;
    memset(said, UNTOUCHED, sizeof *said);
    if (!in_pieces) {
        said->status = rectangle_pack_searched(bins, it->in.bin_count, now.all, now.options, placed, asked->places, written);
    } else {
        said->status = begin_and_run(&now, bins, it->in.bin_count, NULL, &search);
        if (said->status == RP_DONE)
            said->status = rectangle_pack_found(bins, it->in.bin_count, now.all, now.options, &search, placed, asked->places, written);
        check(!search.at, "a search that was packed has not ended");
    }
    take_written(said, placed, size, written);
    number_placements(said, placed, asked->places);
    check_quest_kept(&now);
    check(!memcmp(bins, it->in.bins, it->in.bin_count * sizeof *bins), "bins are changed");
}

/* A search in which the requests for memory from first to last are refused. */
static uint32_t search_once(const sought *it, int in_pieces, long first, long last, found *said)
{
    long before = blocks;
    refuse_requests(first, last);
    perform_search(it, in_pieces, said);
    refuse_nothing();
    check(blocks == before, "memory is not given back");
    check(said->status != RP_OUT_OF_MEMORY || refused, "want of memory is answered where all was there");
    return said->status;
}

/* The bound, alone and as it is said of what was found. No packing that was found uses fewer bins. */
static void check_bound(const sought *it, const found *said)
{
    const request *asked = &it->in.asked;
    const rp_collection all = collection_of(asked);
    size_t least = UNTOUCHED;
    uint32_t fault = fault_of_beginning(&(wanted){.size = sizeof(rp_search_options)}, asked);
    uint32_t status = rectangle_pack_least_bins(it->in.bins, it->in.bin_count, &all, it->wants.turns, it->wants.turn_count, &least);
    check(status == fault || (fault == RP_DONE && status == RP_NOT_ENOUGH_SPACE), "the status of a bound");
    check(status == RP_DONE || least == UNTOUCHED, "a bound is written");
    if (said->status == RP_DONE)
        check(said->said.least == (status == RP_DONE ? least : RP_NO_PACKING), "what is said to be needed is not the bound");
    if (said->status == RP_DONE && said->said.left == 0)
        check(status == RP_DONE && least <= said->said.used, "a packing uses fewer bins than are needed");
}

/* The status is the one that it has to be, and what is answered what is promised. Whether each heuristic is bettered. */
static int check_search(const sought *it, const found *said)
{
    static shelf bins;
    uint32_t fault = fault_of_search(&it->wants, &it->in.asked);
    shelve_bins(&bins, &it->in);
    check_bound(it, said);
    if (fault != RP_DONE) {
        check(said->status == fault, "another thing that is wrong is answered first");
        return 0;
    }
    check(said->status == RP_DONE || said->status == RP_NOT_ENOUGH_SPACE, "the status of a search");
    return check_found(&it->wants, &it->in.asked, &bins, said);
}

#endif
