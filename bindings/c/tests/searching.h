/* Searches: what they are asked, and what their answers have to be. What is found no rule says, so each answer is judged: by
   rectangle_pack_check, cell by cell, and beside what fits by each heuristic. To be included once in a program. */
#ifndef SEARCHING_H
#define SEARCHING_H

#include "one_shot_bins.h"

enum { COSTS = 4, FEW_TRIES = 30, MOST_TRIES = 300 };

/* What a search is asked for, beside a collection. `size` is that of the options. */
typedef struct wanted {
    size_t size, turn_count, cost_count;
    uint64_t tries, seed;
    uint32_t may_leave, turns[BOXES];
    rp_cost costs[COSTS];
} wanted;

/* What it answered; untouched where nothing was written. In a session the placements have numbers. */
typedef struct found {
    uint32_t status;
    rp_searched said;
    rp_standing placed[ENTRIES + 1];
} found;

/* A call that searches, once its lists are there. It writes placements of its own kind. */
typedef struct quest {
    const wanted *wants;
    const request *asked;
    const rp_collection *all;
    const rp_search_options *options;
} quest;

static void draw_turns(wanted *it)
{
    it->turn_count = within(0, 2) ? within(0, BOXES) : 0;
    for (size_t i = 0; i < it->turn_count; i++)
        it->turns[i] = within(0, 2) ? 4 : within(0, 8);
}

/* Costs of bins with these ids, now and then of one that is not there. */
static void draw_costs(wanted *it, const uint32_t *ids, size_t id_count)
{
    it->cost_count = within(0, 1) ? within(0, COSTS) : 0;
    for (size_t i = 0; i < it->cost_count; i++) {
        it->costs[i].bin = within(0, 15) == 15 || id_count == 0 ? 5 : ids[within(0, (uint32_t)id_count - 1)];
        it->costs[i].cost = within(0, 31) == 31 ? UINT64_MAX : within(0, 9);
    }
}

static void draw_wanted(wanted *it, const uint32_t *ids, size_t id_count)
{
    memset(it, 0, sizeof *it);
    it->size = sizeof(rp_search_options);
    if (within(0, 31) == 31)
        it->size = within(0, 1) ? 0 : it->size + 8;
    it->tries = within(0, within(0, 7) == 7 ? MOST_TRIES : FEW_TRIES);
    it->seed = within(0, UINT16_MAX);
    it->may_leave = within(0, 1);
    draw_turns(it);
    draw_costs(it, ids, id_count);
}

/* The options as a call is given them: each list, and the options themselves, are guarded. Without lists they are made as the header
   says. */
static const rp_search_options *guarded_options(const wanted *it)
{
    rp_search_options options = RP_SEARCH_OPTIONS(it->tries);
    options.size = it->size;
    options.seed = it->seed;
    options.may_leave = it->may_leave;
    if (it->turn_count > 0 || it->cost_count > 0) {
        options.turns = guarded_copy(TURNS_LIST, it->turns, it->turn_count * sizeof *it->turns);
        options.turn_count = it->turn_count;
        options.costs = guarded_copy(COSTS_LIST, it->costs, it->cost_count * sizeof *it->costs);
        options.cost_count = it->cost_count;
    }
    return guarded_copy(OPTIONS, &options, sizeof options);
}

/* The lists of a call. They stay as they are until those of the next one are made. */
static quest guarded_quest(const wanted *wants, const request *asked)
{
    return (quest){wants, asked, guarded_collection(asked), guarded_options(wants)};
}

/* What a call is given to read is as before. */
static void check_quest_kept(const quest *it)
{
    const wanted *wants = it->wants;
    const rp_search_options *options = it->options;
    size_t turns = wants->turn_count * sizeof *wants->turns, costs = wants->cost_count * sizeof *wants->costs;
    check_kept(it->asked, it->all);
    check(options->tries == wants->tries && options->seed == wants->seed, "options are changed");
    check(turns == 0 || !memcmp(options->turns, wants->turns, turns), "turns are changed");
    check(costs == 0 || !memcmp(options->costs, wants->costs, costs), "costs are changed");
}

/* The first thing that is wrong with a search, or RP_DONE. */
static uint32_t fault_of_search(const wanted *it, const request *asked)
{
    request by_volume = *asked;
    by_volume.heuristic = RP_VOLUME;
    return it->size == sizeof(rp_search_options) ? fault_of(&by_volume, ALL_OF_IT) : RP_UNKNOWN_OPTIONS;
}

/* The same where places for placements do not count. */
static uint32_t fault_of_beginning(const wanted *it, const request *asked)
{
    request placed = *asked;
    placed.places = entries_of(asked);
    return fault_of_search(it, &placed);
}

/* The first thing that is wrong with a search in one call, or in pieces: there it is looked at first whether it may begin. */
static uint32_t fault_of_call(const wanted *it, const request *asked, int in_pieces)
{
    uint32_t first = in_pieces ? fault_of_beginning(it, asked) : RP_DONE;
    return first == RP_DONE ? fault_of_search(it, asked) : first;
}

/* Makes the tries of a search in pieces that are drawn: progress goes by tries, and ends where nothing is to be bettered. Where memory
   is refused the search is gone. */
static uint32_t run_in_pieces(rp_search *search, uint64_t tries)
{
    uint64_t made = 0;
    while (made < tries) {
        uint64_t piece = within(0, 1) ? within(0, (uint32_t)(tries - made)) : 1;
        rp_progress *now = guarded_untouched(COUNT, sizeof *now);
        uint32_t status = rectangle_pack_search_run(search, piece, now);
        if (status != RP_DONE) {
            check(status == RP_OUT_OF_MEMORY && refused, "a search does not run");
            check(is_untouched(now, sizeof *now) && !search->at, "a search that has ended is told of");
            return status;
        }
        check(now->is_over <= 1 && now->tries <= made + piece, "more tries are made than were asked for");
        check(now->is_over || now->tries == made + piece, "fewer tries are made than were asked for");
        if (now->is_over)
            break;
        made = now->tries;
    }
    return RP_DONE;
}

/* Begins a search that has its lists, in bins of one call or in a session, and runs it. */
static uint32_t begin_and_run(const quest *it, const rp_bin *bins, size_t bin_count, rp_session *session, rp_search *search)
{
    uint32_t right = fault_of_beginning(it->wants, it->asked);
    uint32_t status = session ? rectangle_pack_session_search_begin(session, it->all, it->options, search)
                              : rectangle_pack_search_begin(bins, bin_count, it->all, it->options, search);
    check_quest_kept(it);
    check((status == RP_DONE) == (search->at != NULL), "a search is there that was not begun, or is not there");
    check(status == right || (status == RP_OUT_OF_MEMORY && refused && right == RP_DONE), "the status of a search that is begun");
    return status == RP_DONE ? run_in_pieces(search, it->wants->tries) : status;
}

/* Whether there are so many cells in one of the ways in which the box may stand: as it is, turned about one axis, or about two and so
   in each order of its sides. */
static int may_stand(const rp_section *at, const rp_box *box, uint32_t turns)
{
    const uint32_t w = box->width, h = box->height, d = box->depth;
    const uint32_t ways[6][AXES] = {{w, h, d}, {w, d, h}, {d, h, w}, {h, w, d}, {h, d, w}, {d, w, h}};
    const int only[6] = {1, turns & 1, turns & 2, turns & 4, 0, 0};
    int several = (turns & 7) != 0 && (turns & 7) != 1 && (turns & 7) != 2 && (turns & 7) != 4;
    for (int i = 0; i < 6; i++)
        if ((several || only[i]) && at->width == ways[i][0] && at->height == ways[i][1] && at->depth == ways[i][2])
            return 1;
    return 0;
}

/* How the box of an entry may be turned. */
static uint32_t turns_of(const wanted *it, const request *asked, size_t i)
{
    size_t box = i < asked->box_count ? i : asked->members[i - asked->box_count].index;
    return box < it->turn_count ? it->turns[box] : 0;
}

/* The places of a shelf's bins by id, in rising order of the ids. */
static size_t place_on(const shelf *bins, uint32_t id)
{
    size_t i = 0;
    while (i < bins->count && bins->ids[i] != id)
        i++;
    return i;
}

/* Each entry is left, as its group is, or stands in a size in which it may in a bin of the shelf: its place there, or RP_LEFT_BIN.
   How many are left. */
static size_t check_stand(const wanted *wants, const request *asked, const shelf *bins, const found *it, uint32_t *places)
{
    size_t left = 0;
    for (size_t i = 0; i < entries_of(asked); i++) {
        const rp_standing *at = &it->placed[i];
        rp_box box = box_of(asked, i);
        int is_left = at->number == RP_LEFT_NUMBER;
        places[i] = is_left ? RP_LEFT_BIN : (uint32_t)place_on(bins, at->bin);
        left += (size_t)is_left;
        check(is_left || places[i] < bins->count, "a box is in no bin");
        check(is_left || may_stand(&at->section, &box, turns_of(wants, asked, i)), "a box stands in another size");
        check(is_left ? at->bin == RP_LEFT_BIN && at->index == 0 : at->index == i, "the bin or the index of a box");
        check(!is_left || !memcmp(&at->section, &(rp_section){0, 0, 0, 0, 0, 0}, sizeof at->section), "a box that is left stands");
    }
    check_groups(asked, places);
    return left;
}

/* No two boxes of the search share a cell, and each is inside its bin. */
static void check_apart(const shelf *bins, const request *asked, const found *it, const uint32_t *places)
{
    static cells filled[BINS];
    memset(filled, 0, sizeof filled);
    for (size_t i = 0; i < entries_of(asked); i++)
        if (places[i] != RP_LEFT_BIN)
            fill(filled[places[i]], &bins->sizes[places[i]], &it->placed[i].section);
}

/* The library's own judge finds nothing wrong with what is not left. */
static void check_judged(const wanted *wants, const request *asked, const shelf *bins, const found *it, const uint32_t *places)
{
    rp_entry entries[ENTRIES];
    rp_claim claims[ENTRIES];
    rp_fault fault = {UNTOUCHED, 0, 0};
    uint32_t count = 0;
    for (size_t i = 0; i < entries_of(asked); i++) {
        if (places[i] == RP_LEFT_BIN)
            continue;
        entries[count] = (rp_entry){box_of(asked, i), turns_of(wants, asked, i)};
        claims[count] = (rp_claim){count, places[i], it->placed[i].section};
        count++;
    }
    check(rectangle_pack_check(bins->sizes, bins->count, entries, count, asked->exclusions, asked->exclusion_count, claims, count,
                               &fault) == RP_DONE, "what was found is not judged");
    check(fault.kind == RP_NO_FAULT, "the judge finds a fault");
}

/* How many bins have a box. */
static size_t used_by(const request *asked, const uint32_t *places)
{
    int has_box[BINS] = {0};
    size_t used = 0;
    for (size_t i = 0; i < entries_of(asked); i++)
        if (places[i] != RP_LEFT_BIN)
            used += !has_box[places[i]]++;
    return used;
}

/* What is said of what was found: how many are left, how many bins are used, and that none is needed more than there are. */
static void check_said(const wanted *wants, const request *asked, const found *it, const uint32_t *places, size_t left)
{
    const rp_searched *said = &it->said;
    size_t used = used_by(asked, places);
    int is_optimal = left == 0 && said->least != RP_NO_PACKING && used <= said->least;
    check(said->left == left && said->used == used, "how many are left, or used, is another number");
    check(wants->may_leave || left == 0, "what may not be left is");
    check(left > 0 || said->least <= used, "more bins are needed than are used");
    check(said->is_optimal == (uint32_t)is_optimal, "whether it is optimal");
    check(said->tries <= wants->tries, "more tries are made than were asked for");
}

/* What packings are compared by: the cells that are left, the cost of the bins that get cells, how many these are, and the cells of
   the last one. */
typedef struct outlay {
    rate left, cost;
    use made;
} outlay;

static uint64_t cost_of(const wanted *it, uint32_t bin)
{
    for (size_t i = 0; i < it->cost_count; i++)
        if (it->costs[i].bin == bin)
            return it->costs[i].cost;
    return 1;
}

static outlay outlay_of(const wanted *it, const packing *now, const shelf *bins)
{
    outlay sum = {0, 0, use_of(now, bins)};
    for (size_t i = 0; i < bins->count; i++) {
        rate filled = 0;
        for (size_t j = 0; j < now->count; j++)
            if (now->entries[j].is_placed && now->entries[j].bin == i)
                filled += cells_in(&now->entries[j].box);
        sum.cost += filled > 0 ? cost_of(it, bins->ids[i]) : 0;
    }
    sum.left = sum.made.left;
    return sum;
}

static int is_better_outlay(const outlay *one, const outlay *other)
{
    if (one->left != other->left)
        return one->left < other->left;
    return one->cost != other->cost ? one->cost < other->cost : is_better_use(&one->made, &other->made);
}

/* What was found, as a packing. */
static void packing_found(packing *now, const rp_collection *all, const uint32_t *places)
{
    begin_packing(now, all, RP_VOLUME);
    for (size_t i = 0; i < now->count; i++) {
        now->entries[i].is_left = places[i] == RP_LEFT_BIN;
        now->entries[i].is_placed = places[i] != RP_LEFT_BIN;
        now->entries[i].bin = places[i];
    }
}

/* No heuristic finds what is better; without placements, none finds space for all. How many heuristics find what is worse. */
static int check_beside_heuristics(const wanted *wants, const request *asked, const shelf *bins, const uint32_t *places)
{
    static packing now, own;
    static shelf after;
    rp_collection all = collection_of(asked);
    outlay found = {0, 0, {0, 0, 0}};
    int worse = 0;
    if (places) {
        packing_found(&own, &all, places);
        found = outlay_of(wants, &own, bins);
    }
    for (uint32_t i = 0; i < HEURISTICS; i++) {
        copy_shelf(&after, bins);
        if (!pack_by(&now, &all, i, &after, places && wants->may_leave))
            continue;
        check(places != NULL, "there is space by a heuristic");
        outlay next = outlay_of(wants, &now, bins);
        check(!is_better_outlay(&next, &found), "a heuristic finds what is better");
        worse += is_better_outlay(&found, &next);
    }
    return worse == HEURISTICS;
}

/* Holds an answer against all that is promised of it, but for what else stands in the bins. Whether each heuristic is bettered. */
static int check_found(const wanted *wants, const request *asked, const shelf *bins, const found *it)
{
    uint32_t places[ENTRIES];
    if (it->status == RP_NOT_ENOUGH_SPACE) {
        check(!wants->may_leave, "there is not enough space for what may be left");
        return check_beside_heuristics(wants, asked, bins, NULL);
    }
    size_t left = check_stand(wants, asked, bins, it, places);
    check_apart(bins, asked, it, places);
    check_judged(wants, asked, bins, it, places);
    check_said(wants, asked, it, places, left);
    return check_beside_heuristics(wants, asked, bins, places);
}

/* Whether two searches of one kind found the same. */
static int are_same_finds(const found *one, const found *other)
{
    return one->status == other->status && one->said.left == other->said.left && one->said.used == other->said.used &&
           one->said.least == other->said.least && one->said.is_optimal == other->said.is_optimal &&
           one->said.tries == other->said.tries && !memcmp(one->placed, other->placed, sizeof one->placed);
}

/* What was found in pieces is what was found in one call; or it is answered what is wrong with the one and with the other. */
static void check_in_pieces(const wanted *wants, const request *asked, const found *whole, const found *pieces)
{
    uint32_t fault = fault_of_call(wants, asked, 1);
    check(fault == RP_DONE ? are_same_finds(whole, pieces) : pieces->status == fault, "a search in pieces finds another packing");
}

/* Takes up what a call wrote to guarded places, which is nothing where it is not done. */
static void take_written(found *it, const void *placed, size_t size, const rp_searched *said)
{
    int is_done = it->status == RP_DONE;
    check(is_done || is_untouched(placed, size), "placements are written");
    check(is_done != is_untouched(said, sizeof *said), "what was found is written, or is not");
    it->said = *said;
}

#endif
