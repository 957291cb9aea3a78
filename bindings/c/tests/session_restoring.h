/* Sessions that are saved by the calls that read them, and made again; and parts that are drawn, now and then with a mistake. What
   is answered of parts is held against a judge by plain loops. To be included once in a program. */
#ifndef SESSION_RESTORING_H
#define SESSION_RESTORING_H

#include "packing_draws.h"
#include "session_reading.h"
#include "session_upkeep.h"

/* Bins that are drawn have sides of at most so many cells, and are parted so many times at most. */
enum { DRAWN_SIDE = 8, DRAWN_CUTS = 4, KINDS_OF_WRONG = RP_WRONG_CUTS + 1 };

/* The parts of a session, as they would be saved. */
typedef struct parts {
    rp_saved_bin bins[BINS];
    rp_section sections[BINS * SECTIONS];
    rp_standing placements[STANDING];
    size_t bin_count, section_count, placement_count;
    uint64_t next_number;
} parts;

/* How often a session was made of parts, and how often they were wrong, by what was. */
static long restored, wrongs[KINDS_OF_WRONG];

static rp_wrong wrong_at(uint32_t kind, size_t bin, size_t first, size_t second)
{
    rp_wrong it;
    memset(&it, 0, sizeof it);
    it.kind = kind;
    it.bin = bin;
    it.first = first;
    it.second = second;
    return it;
}

static int is_inside(const rp_section *it, const rp_bin *bin)
{
    return (uint64_t)it->x + it->width <= bin->width && (uint64_t)it->y + it->height <= bin->height
           && (uint64_t)it->z + it->depth <= bin->depth;
}

static int meet(uint32_t one, uint32_t side_of_one, uint32_t other, uint32_t side_of_other)
{
    return side_of_one > 0 && side_of_other > 0 && one < (uint64_t)other + side_of_other && other < (uint64_t)one + side_of_one;
}

static int share_a_cell(const rp_section *one, const rp_section *other)
{
    return meet(one->x, one->width, other->x, other->width) && meet(one->y, one->height, other->y, other->height)
           && meet(one->z, one->depth, other->z, other->depth);
}

/* What is wrong with boxes that are to be inside a bin, none on another: kind 0 where nothing is. */
static rp_wrong judge_boxes(size_t bin, const rp_bin *size, const rp_section *boxes, size_t count)
{
    for (size_t i = 0; i < count; i++)
        if (!is_inside(&boxes[i], size))
            return wrong_at(RP_WRONG_OUTSIDE, bin, i, 0);
    for (size_t i = 0; i < count; i++)
        for (size_t j = 0; j < i; j++)
            if (share_a_cell(&boxes[j], &boxes[i]))
                return wrong_at(RP_WRONG_SHARED_CELL, bin, j, i);
    return wrong_at(0, 0, 0, 0);
}

static rate volume_of(uint32_t width, uint32_t height, uint32_t depth)
{
    return (rate)width * height * depth;
}

/* Whether straight cuts leave boxes that cover a bin. */
static int are_from_cuts(const rp_bin *size, const rp_section *boxes, size_t count)
{
    static filling all;
    static plan own;
    all.count = own.count = 0;
    for (size_t i = 0; i < count; i++)
        add_box(&all, boxes[i]);
    return add_plan(&own, whole_of(size), &all);
}

/* What is wrong with all boxes of a bin. */
static rp_wrong judge_bin(size_t bin, const rp_saved_bin *saved, const rp_section *boxes, size_t count)
{
    const rp_bin *size = &saved->size;
    rp_wrong found = judge_boxes(bin, size, boxes, count);
    rate cells = 0;
    if (found.kind)
        return found;
    for (size_t i = 0; i < count; i++)
        cells += volume_of(boxes[i].width, boxes[i].height, boxes[i].depth);
    if (cells != volume_of(size->width, size->height, size->depth))
        return wrong_at(RP_WRONG_CELL_IN_NONE, bin, 0, 0);
    if (!saved->coalesced && !are_from_cuts(size, boxes, count))
        return wrong_at(RP_WRONG_CUTS, bin, 0, 0);
    return found;
}

static int names_a_bin(const parts *it, uint32_t id)
{
    for (size_t i = 0; i < it->bin_count; i++)
        if (it->bins[i].id == id)
            return 1;
    return 0;
}

static rp_wrong judge_placements(const parts *it)
{
    for (size_t i = 0; i < it->placement_count; i++) {
        if (i > 0 && it->placements[i].number <= it->placements[i - 1].number)
            return wrong_at(RP_WRONG_NUMBER, 0, i, 0);
        if (it->placements[i].number >= it->next_number)
            return wrong_at(RP_WRONG_NEXT, 0, i, 0);
        if (!names_a_bin(it, it->placements[i].bin))
            return wrong_at(RP_WRONG_UNKNOWN_BIN, 0, i, 0);
    }
    return wrong_at(0, 0, 0, 0);
}

/* The counts and the ids. */
static rp_wrong judge_bins(const parts *it)
{
    uint64_t counted = 0;
    for (size_t i = 0; i < it->bin_count; i++)
        counted += it->bins[i].section_count;
    if (counted != it->section_count)
        return wrong_at(RP_WRONG_SECTIONS, 0, 0, 0);
    for (size_t i = 1; i < it->bin_count; i++)
        if (it->bins[i].id <= it->bins[i - 1].id)
            return wrong_at(RP_WRONG_IDS, i, 0, 0);
    return wrong_at(0, 0, 0, 0);
}

/* The free sections of each bin, and, where that is asked, its placements behind them. */
static rp_wrong judge_each_bin(const parts *it, int with_placements)
{
    static rp_section boxes[FILLING];
    rp_wrong found = wrong_at(0, 0, 0, 0);
    const rp_section *own = it->sections;
    for (size_t i = 0; i < it->bin_count && !found.kind; i++) {
        size_t count = it->bins[i].section_count;
        memcpy(boxes, own, count * sizeof *own);
        own += count;
        for (size_t j = 0; with_placements && j < it->placement_count; j++)
            if (it->placements[j].bin == it->bins[i].id)
                boxes[count++] = it->placements[j].section;
        found = with_placements ? judge_bin(i, &it->bins[i], boxes, count) : judge_boxes(i, &it->bins[i].size, boxes, count);
    }
    return found;
}

/* What is wrong first with parts: kind 0 where nothing is. */
static rp_wrong judge(const parts *it)
{
    rp_wrong found = judge_bins(it);
    if (!found.kind)
        found = judge_each_bin(it, 0);
    if (!found.kind)
        found = judge_placements(it);
    if (!found.kind)
        found = judge_each_bin(it, 1);
    return found;
}

/* Each cell of each bin is in exactly one free section or placement. */
static void check_each_cell(const parts *it)
{
    static cells filled;
    const rp_section *own = it->sections;
    for (size_t i = 0; i < it->bin_count; i++) {
        rp_section whole = whole_of(&it->bins[i].size);
        uint64_t count = 0;
        memset(filled, 0, sizeof filled);
        for (size_t j = 0; j < it->bins[i].section_count; j++)
            count += fill(filled, &it->bins[i].size, own++);
        for (size_t j = 0; j < it->placement_count; j++)
            if (it->placements[j].bin == it->bins[i].id)
                count += fill(filled, &it->bins[i].size, &it->placements[j].section);
        check(count == cells_of(&whole), "a cell is neither free nor placed");
    }
}

/* A copy that ends where nobody may read on, where it is short enough; else the list itself. */
static const void *fenced(enum list list, const void *from, size_t size)
{
    return size <= LIST_ROOM ? guarded_copy(list, from, size) : from;
}

static const rp_saved *saved_as(const parts *it)
{
    rp_saved all;
    memset(&all, 0, sizeof all);
    all.bins = fenced(BINS_LIST, it->bins, it->bin_count * sizeof *it->bins);
    all.bin_count = it->bin_count;
    all.sections = fenced(BOXES_LIST, it->sections, it->section_count * sizeof *it->sections);
    all.section_count = it->section_count;
    all.placements = fenced(PLACEMENTS_LIST, it->placements, it->placement_count * sizeof *it->placements);
    all.placement_count = it->placement_count;
    all.next_number = it->next_number;
    return guarded_copy(COLLECTION, &all, sizeof all);
}

static void check_parts_kept(const parts *it, const rp_saved *all)
{
    check(!memcmp(all->bins, it->bins, it->bin_count * sizeof *it->bins), "saved bins are changed");
    check(!memcmp(all->sections, it->sections, it->section_count * sizeof *it->sections), "saved sections are changed");
    check(!memcmp(all->placements, it->placements, it->placement_count * sizeof *it->placements), "saved placements are changed");
}

/* Asks for the session of parts. The handle is one without a session, and stays so where there is none. */
static uint32_t ask_restore(const parts *it, rp_session *session, rp_wrong *said)
{
    long before = blocks;
    const rp_saved *all = saved_as(it);
    rp_wrong *wrong = guarded_untouched(CHOSEN, sizeof *wrong);
    uint32_t status = rectangle_pack_session_restore(session, all, wrong);
    check_parts_kept(it, all);
    check((session->at != NULL) == (status == RP_DONE), "a handle has no session, or one that was not made");
    check(status == RP_DONE || blocks == before, "memory of a session that is not made is not given back");
    check(status == RP_WRONG_PARTS || is_untouched(wrong, sizeof *wrong), "what is wrong is written where nothing is");
    *said = *wrong;
    return status;
}

/* Makes the session of parts, if they are those of one; where memory is wanted, again with all memory. How often it was wanted. */
static int restore(const parts *it, rp_session *session)
{
    rp_wrong right = judge(it), said;
    refused = 0;
    uint32_t status = ask_restore(it, session, &said);
    int wanted = status == RP_OUT_OF_MEMORY;
    if (wanted) {
        check(refused, "want of memory is answered where all was there");
        refuse_nothing();
        status = ask_restore(it, session, &said);
    }
    if (right.kind) {
        check(status == RP_WRONG_PARTS, "wrong parts are not refused");
        check(said.kind == right.kind && said.bin == right.bin, "another thing is wrong with parts");
        check(said.first == right.first && said.second == right.second, "another box or placement is wrong");
    } else {
        check(status == RP_DONE, "no session is made of the parts of one");
    }
    restored += status == RP_DONE;
    wrongs[right.kind] += status == RP_WRONG_PARTS;
    return wanted;
}

/* Saves a bin: what the calls tell of it. */
static void save_bin(rp_session *session, parts *it, rp_saved_bin *bin)
{
    size_t left = sizeof it->sections / sizeof *it->sections - it->section_count, count;
    check(rectangle_pack_session_bin_size(session, bin->id, &bin->size) == RP_DONE, "the size of a bin");
    check(rectangle_pack_session_was_coalesced(session, bin->id, &bin->coalesced) == RP_DONE, "whether a bin was coalesced");
    uint32_t status = rectangle_pack_session_free_sections(session, bin->id, &it->sections[it->section_count], left, &count);
    check(status == RP_DONE, "the free sections of a bin");
    bin->section_count = (uint32_t)count;
    it->section_count += count;
}

/* Saves a session: all of its parts, by the calls that read it. */
static void save(rp_session *session, parts *it)
{
    uint32_t list[BINS];
    memset(it->bins, 0, sizeof it->bins);
    it->section_count = 0;
    check(rectangle_pack_session_bins(session, list, BINS, &it->bin_count) == RP_DONE, "the bins of a session");
    for (size_t i = 0; i < it->bin_count; i++) {
        it->bins[i].id = list[i];
        save_bin(session, it, &it->bins[i]);
    }
    uint32_t status = rectangle_pack_session_outstanding(session, it->placements, STANDING, &it->placement_count);
    check(status == RP_DONE, "the placements of a session");
    it->next_number = rectangle_pack_session_next_number(session);
}

/* The session tells these parts again. */
static void check_saved(rp_session *session, const parts *it)
{
    static parts again;
    save(session, &again);
    check(again.bin_count == it->bin_count && again.section_count == it->section_count, "how many bins or sections are read");
    check(again.placement_count == it->placement_count && again.next_number == it->next_number, "how many placements are read");
    for (size_t i = 0; i < it->bin_count; i++) {
        rp_saved_bin bin = it->bins[i];
        bin.coalesced = bin.coalesced != 0;
        check(!memcmp(&again.bins[i], &bin, sizeof bin), "a bin is not as it was saved");
    }
    check(!memcmp(again.sections, it->sections, it->section_count * sizeof *it->sections), "sections are not as they were saved");
    for (size_t i = 0; i < it->placement_count; i++) {
        const rp_standing *one = &again.placements[i], *other = &it->placements[i];
        check(one->number == other->number && one->index == other->index && one->bin == other->bin, "another placement is read");
        check(are_same(&one->section, &other->section), "a placement is not where it was saved");
    }
}

/* Saves a session, makes it again, and frees the old one. How often memory was wanted. */
static int begin_again(rp_session *session)
{
    static parts saved;
    rp_session made = RP_NO_SESSION;
    save(session, &saved);
    int wanted = restore(&saved, &made);
    check_saved(&made, &saved);
    rectangle_pack_session_free(session);
    *session = made;
    return wanted;
}

/* A part of the bin that is drawn last, as a free section or as a placement. */
static void add_part(parts *it, rp_section part)
{
    rp_saved_bin *bin = &it->bins[it->bin_count - 1];
    if (within(0, 1)) {
        it->sections[it->section_count++] = part;
        bin->section_count++;
        return;
    }
    rp_standing *one = &it->placements[it->placement_count++];
    it->next_number += within(0, 2);
    *one = (rp_standing){it->next_number, within(0, 9), bin->id, part};
    it->next_number++;
}

/* Parts a box by straight cuts. */
static void draw_cuts(parts *it, rp_section part, int most)
{
    int axis = (int)within(0, AXES - 1);
    rp_section lower = part, upper = part;
    uint32_t length = *side(&part, axis);
    if (most == 0 || length < 2) {
        add_part(it, part);
        return;
    }
    uint32_t place = within(1, length - 1);
    *side(&lower, axis) = place;
    *corner(&upper, axis) += place;
    *side(&upper, axis) = length - place;
    draw_cuts(it, lower, most - 1);
    draw_cuts(it, upper, most - 1);
}

/* Four strips round a box, which no straight cut leaves whole. */
static void draw_pinwheel(parts *it, uint32_t width, uint32_t height, uint32_t depth)
{
    add_part(it, (rp_section){0, 0, 0, width - 1, 1, depth});
    add_part(it, (rp_section){width - 1, 0, 0, 1, height - 1, depth});
    add_part(it, (rp_section){1, height - 1, 0, width - 1, 1, depth});
    add_part(it, (rp_section){0, 1, 0, 1, height - 1, depth});
    add_part(it, (rp_section){1, 1, 0, width - 2, height - 2, depth});
}

static void draw_saved_bin(parts *it)
{
    rp_saved_bin *bin = &it->bins[it->bin_count++];
    uint32_t before = it->bin_count > 1 ? bin[-1].id + 1 : 0;
    memset(bin, 0, sizeof *bin);
    bin->id = before + within(0, 2);
    bin->size.width = within(1, DRAWN_SIDE);
    bin->size.height = within(1, DRAWN_SIDE);
    bin->size.depth = within(0, 1) ? 1 : within(1, DRAWN_SIDE);
    bin->coalesced = within(0, 2);
    if (bin->size.width > 2 && bin->size.height > 2 && within(0, 5) == 0)
        draw_pinwheel(it, bin->size.width, bin->size.height, bin->size.depth);
    else
        draw_cuts(it, whole_of(&bin->size), (int)within(0, DRAWN_CUTS));
}

/* A number that is one more or less, or any. */
static uint32_t mistaken(uint32_t number)
{
    uint32_t how = within(0, 4);
    return how == 0 ? within(0, UINT32_MAX - 1) : how < 3 ? number + 1 : number - 1;
}

static void mistake_section(rp_section *it)
{
    int axis = (int)within(0, AXES - 1);
    uint32_t *number = within(0, 1) ? side(it, axis) : corner(it, axis);
    *number = mistaken(*number);
}

/* Takes out the last free section. */
static void mistake_last(parts *it)
{
    for (size_t i = it->bin_count; i-- > 0;) {
        if (it->bins[i].section_count > 0) {
            it->bins[i].section_count--;
            it->section_count--;
            return;
        }
    }
}

static void mistake_placement(parts *it)
{
    rp_standing *one = &it->placements[within(0, (uint32_t)it->placement_count - 1)];
    switch (within(0, 3)) {
    case 0:
        one->number = mistaken((uint32_t)one->number);
        break;
    case 1:
        one->bin = mistaken(one->bin);
        break;
    default:
        mistake_section(&one->section);
    }
}

static void mistake_bin(rp_saved_bin *bin)
{
    switch (within(0, 3)) {
    case 0:
        bin->id = mistaken(bin->id);
        break;
    case 1:
        bin->section_count = mistaken(bin->section_count);
        break;
    default:
        *side_of(&bin->size, within(0, AXES - 1)) += within(0, 1) ? 1 : UINT32_MAX;
    }
}

static void mistake_parts(parts *it)
{
    switch (within(0, 5)) {
    case 0:
        if (it->bin_count > 0)
            mistake_bin(&it->bins[within(0, (uint32_t)it->bin_count - 1)]);
        break;
    case 1:
        if (it->section_count > 0)
            mistake_section(&it->sections[within(0, (uint32_t)it->section_count - 1)]);
        break;
    case 2:
        mistake_last(it);
        break;
    case 3:
        it->next_number -= it->next_number > 0;
        break;
    default:
        if (it->placement_count > 0)
            mistake_placement(it);
    }
}

/* Parts of a session, or, in one of three, parts with a mistake. */
static void draw_parts(parts *it)
{
    it->bin_count = it->section_count = it->placement_count = 0;
    it->next_number = within(0, 3);
    for (uint32_t count = within(0, BINS); count > 0; count--)
        draw_saved_bin(it);
    it->next_number += within(0, 1);
    if (within(0, 2) == 2)
        mistake_parts(it);
}

/* The session goes on: a box is packed, some placements are released, and sections are joined. Each cell stays in one. */
static void go_on(rp_session *session)
{
    static parts now;
    rp_box box = {1, 1, 1, 0};
    rp_outstanding place;
    box.width = within(1, 3);
    box.height = within(1, 3);
    save(session, &now);
    if (now.placement_count < STANDING)
        rectangle_pack_session_pack(session, &box, 1, &place, 1);
    for (size_t i = 0; i < now.placement_count; i += 1 + within(0, 1))
        rectangle_pack_session_release(session, now.placements[i].number);
    for (size_t i = 0; i < now.bin_count; i++)
        if (within(0, 1))
            rectangle_pack_session_coalesce_all(session, now.bins[i].id);
    save(session, &now);
    check_each_cell(&now);
    check(!judge(&now).kind, "a session that went on is none");
}

/* Draws parts, and makes their session, if they have one, which then goes on. How often memory was wanted. */
static int restore_drawn(void)
{
    static parts drawn;
    rp_session made = RP_NO_SESSION;
    draw_parts(&drawn);
    int wanted = restore(&drawn, &made);
    if (made.at) {
        check_saved(&made, &drawn);
        check_each_cell(&drawn);
        go_on(&made);
        rectangle_pack_session_free(&made);
    }
    return wanted;
}

#endif
