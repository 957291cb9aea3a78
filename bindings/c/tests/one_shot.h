/* The calls that pack once and keep nothing: what they are asked, and what they have to answer. To be included once in a
   program. */
#ifndef ONE_SHOT_H
#define ONE_SHOT_H

#include "one_shot_bins.h"

/* What it answered; untouched where nothing was written. How many are left is written by calls that pack what fits, and which step
   is refused by those that pack as they are told. */
typedef struct reply {
    uint32_t status, chosen;
    size_t left;
    rp_refused refused;
    rp_placement placed[ENTRIES + 1];
} reply;

/* The call, which writes what it wrote of the whole packing to `said`. */
static uint32_t call_for(const input *it, const rp_bin *bins, const rp_collection *all, rp_placement *placed, reply *said)
{
    const request *asked = &it->asked;
    size_t size = asked->places * sizeof *placed;
    uint32_t *chosen = guarded_untouched(CHOSEN, sizeof *chosen), status;
    if (it->way == ALL_OF_IT) {
        status = rectangle_pack_collection(bins, it->bin_count, all, asked->heuristic, placed, asked->places, chosen);
    } else {
        status = rectangle_pack_boxes(bins, it->bin_count, all->boxes, all->box_count, placed, asked->places);
        if (status == RP_DONE)
            *chosen = RP_VOLUME;
    }
    check_written(status, placed, size, chosen, sizeof *chosen);
    said->chosen = *chosen;
    return status;
}

static uint32_t call_for_what_fits(const input *it, const rp_bin *bins, const rp_collection *all, rp_placement *placed,
                                   reply *said)
{
    const request *asked = &it->asked;
    rp_fitted *fitted = guarded_untouched(CHOSEN, sizeof *fitted);
    uint32_t status = rectangle_pack_fitting(bins, it->bin_count, all, asked->heuristic, placed, asked->places, fitted);
    check_written(status, placed, asked->places * sizeof *placed, fitted, sizeof *fitted);
    said->chosen = fitted->heuristic;
    said->left = fitted->left;
    return status;
}

static uint32_t call_as_told(const input *it, const rp_bin *bins, const rp_collection *all, rp_placement *placed, reply *said)
{
    const request *asked = &it->asked;
    const rp_step *steps = guarded_steps(asked);
    rp_refused *refused = guarded_untouched(CHOSEN, sizeof *refused);
    uint32_t status = rectangle_pack_told(bins, it->bin_count, all, steps, asked->step_count, placed, asked->places, refused);
    check_told(status, placed, asked->places * sizeof *placed, refused);
    check(!memcmp(steps, asked->steps, asked->step_count * sizeof *steps), "steps are changed");
    said->refused = *refused;
    return status;
}

static void perform_once(const input *it, reply *said)
{
    const rp_bin *bins = guarded_copy(BINS_LIST, it->bins, it->bin_count * sizeof *bins);
    const rp_collection *all = guarded_collection(&it->asked);
    size_t size = it->asked.places * sizeof *said->placed;
    rp_placement *placed = guarded_untouched(PLACEMENTS_LIST, size);
    memset(said, UNTOUCHED, sizeof *said);
    said->status = (it->way == AS_TOLD ? call_as_told : it->way == WHAT_FITS ? call_for_what_fits : call_for)(it, bins, all, placed,
                                                                                                       said);
    check_kept(&it->asked, all);
    check(!memcmp(bins, it->bins, it->bin_count * sizeof *bins), "bins are changed");
    memcpy(said->placed, placed, size);
}

/* A call in which the requests for memory from first to last are refused. It gives all its memory back, and wants memory only
   where some was refused. */
static uint32_t call_once(const input *it, long first, long last, reply *said)
{
    long before = blocks;
    refuse_requests(first, last);
    perform_once(it, said);
    refuse_nothing();
    check(blocks == before, "memory is not given back");
    check(said->status != RP_OUT_OF_MEMORY || refused, "want of memory is answered where all was there");
    return said->status;
}

/* What the call has to answer where all memory is there. */
static void reply_by_rule(const input *it, reply *right)
{
    static shelf bins;
    static packing best;
    shelve_bins(&bins, it);
    memset(right, UNTOUCHED, sizeof *right);
    right->status = answer_of(&it->asked, it->way, &bins, &best);
    if (right->status == RP_STEP_REFUSED)
        right->refused = best.refused;
    if (right->status != RP_DONE)
        return;
    if (it->way != AS_TOLD)
        right->chosen = best.heuristic;
    if (it->way == WHAT_FITS)
        right->left = left_by(&best);
    for (size_t i = 0; i < best.count; i++) {
        const entry *now = &best.entries[i];
        right->placed[i] = (rp_placement){(uint32_t)now->bin, now->at.x, now->at.y, now->at.z};
        if (now->is_left)
            right->placed[i] = (rp_placement){RP_LEFT_BIN, 0, 0, 0};
    }
}

/* Each box that is not left is inside its bin, and no two share a cell; groups are together, and those that are excluded are apart. */
static void check_placed(const input *it, const reply *said)
{
    static cells filled[BINS];
    uint32_t bins[ENTRIES];
    size_t left = 0;
    memset(filled, 0, sizeof filled);
    for (size_t i = 0; i < entries_of(&it->asked); i++) {
        rp_box box = box_of(&it->asked, i);
        rp_section at = section_at(&said->placed[i], &box);
        bins[i] = said->placed[i].bin;
        if (it->way >= WHAT_FITS && bins[i] == RP_LEFT_BIN) {
            left++;
            continue;
        }
        check(bins[i] < it->bin_count, "a box is in no bin");
        fill(filled[bins[i]], &it->bins[bins[i]], &at);
    }
    check(it->way != WHAT_FITS || said->left == left, "how many are left is another number");
    check_groups(&it->asked, bins);
}

static int are_same_replies(const reply *one, const reply *other)
{
    return one->status == other->status && one->chosen == other->chosen && one->left == other->left &&
           are_same_steps(&one->refused, &other->refused) && !memcmp(one->placed, other->placed, sizeof one->placed);
}

/* The answer is what the header promises, and that of the rule. */
static void check_reply(const input *it, const reply *right, const reply *said)
{
    if (said->status == RP_DONE)
        check_placed(it, said);
    check(said->status == right->status, "the status is not that of the rule");
    check(said->chosen == right->chosen, "the heuristic is not that of the rule");
    check(are_same_steps(&said->refused, &right->refused), "another step is refused than by the rule");
    check(are_same_replies(said, right), "the placements are not those of the rule");
}

#endif
