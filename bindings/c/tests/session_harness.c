/* Drives sessions by drawn commands and keeps its own account of what is outstanding, cell by cell. After each call it looks
   at what the header promises: the status, the numbers, the placements of the packing rule, groups together, excluded groups
   apart, and nothing changed or written unless the call was done. It asks each of the calls that read a session, for each bin:
   each cell is in exactly one free section or outstanding box of its bin, and lists, sums and cutting plans are those of the
   account. In the middle of its commands a session is saved, and made again of its parts. Then it runs the same commands with each
   request for memory refused in turn, alone and with all after it: a call that wants memory leaves the session as it was and is
   made again, so that in the end all answers are the same. Then it makes sessions of parts that are drawn, of which a judge of
   its own says what is wrong. At last it asks how straight cuts part bins into boxes that are drawn. Link it with
   -Wl,--wrap=malloc,--wrap=realloc,--wrap=free. */
#include <limits.h>
#include <stdio.h>
#include <string.h>

#include "rectangle_pack.h"
#include "refusing.h"
#include "session_commands.h"
#include "session_draws.h"
#include "session_restoring.h"
#include "straight_cuts_cases.h"

enum { SCRIPTS = 60, STATUSES = RP_STEP_REFUSED + 1, DRAWN_PARTS = 20000, REFUSED_PARTS = 100 };

/* Reads all plans, with refusals of their own. Their requests are not counted among those of the script. */
static void read_plans(rp_session *session, const account *now)
{
    long counted = requests;
    for (size_t i = 0; i < BINS; i++)
        read_plan(session, now, i, &now->free[i]);
    requests = counted;
}

/* The size of each bin, also of those that are not there. */
static void read_sizes(rp_session *session, const account *now)
{
    for (size_t i = 0; i < BINS; i++) {
        rp_bin size;
        memset(&size, UNTOUCHED, sizeof size);
        uint32_t status = rectangle_pack_session_bin_size(session, ids[i], &size);
        check(status == (now->has_bin[i] ? RP_DONE : RP_UNKNOWN_BIN), "the status of bin_size");
        if (now->has_bin[i])
            check(!memcmp(&size, &now->bins[i], sizeof size), "the size of a bin");
        else
            check(is_untouched(&size, sizeof size), "the size of no bin is written");
    }
}

/* Runs a script in a session of its own, in which the requests from first to last are refused. Between commands the session is
   moved. Plans are read where none are refused: all that they are made of is the same with refusals. How often memory was
   wanted. */
static long run(const command *script, long first, long last, answer *answers)
{
    static account now;
    rp_session handles[2] = {RP_NO_SESSION, RP_NO_SESSION};
    open_account(&now);
    refuse_requests(first, last);
    long wanted = begin(&handles[0]);
    for (size_t i = 0; i < COMMANDS; i++) {
        wanted += obey(&handles[i % 2], &script[i], &now, &answers[i]);
        if (i == COMMANDS / 2)
            wanted += begin_again(&handles[i % 2]);
        if (first == NONE) {
            read_plans(&handles[i % 2], &now);
            read_sizes(&handles[i % 2], &now);
        }
        handles[(i + 1) % 2] = handles[i % 2];
        memset(&handles[i % 2], UNTOUCHED, sizeof handles[i % 2]);
    }
    rectangle_pack_session_free(&handles[COMMANDS % 2]);
    refuse_nothing();
    check(!handles[COMMANDS % 2].at, "a freed handle is not empty");
    check(blocks == 0, "memory is not given back");
    return wanted;
}

static void check_same(const answer *one, const answer *other)
{
    for (size_t i = 0; i < COMMANDS; i++) {
        check(one[i].status == other[i].status, "a refused request changes a status");
        check(one[i].chosen == other[i].chosen, "a refused request changes a heuristic");
        check(one[i].left == other[i].left, "a refused request changes how many are left");
        check(are_same_steps(&one[i].refused, &other[i].refused), "a refused request changes which step is refused");
        check(!memcmp(one[i].places, other[i].places, sizeof one[i].places), "a refused request changes placements");
        check(!memcmp(one[i].stats, other[i].stats, sizeof one[i].stats), "a refused request changes statistics");
        check(one[i].free == other[i].free, "a refused request changes free sections");
    }
}

/* Runs a script once with all memory, and then with each request refused in turn. Alone a request may have been for room that
   was not needed, and then no call wants memory. How often memory was wanted. */
static long run_each(const command *script, answer *answers)
{
    static answer again[COMMANDS];
    long wanted = run(script, NONE, NONE, answers), all = requests;
    check(wanted == 0, "want of memory is answered where all was there");
    for (long request = 0; request < all; request++) {
        wanted += run(script, request, request, again);
        check_same(answers, again);
        wanted += run(script, request, LONG_MAX, again);
        check_same(answers, again);
    }
    return wanted;
}

/* The first command adds a bin, so that there is one to pack into. */
static void draw_script(command *script)
{
    static const enum kind kinds[] = {ADD_BIN, ADD_BIN, ADD_BIN, PACK, PACK, PACK_COLLECTION, PACK_COLLECTION, PACK_COLLECTION,
                                      PACK_COLLECTION, RELEASE, RELEASE, RELEASE, COALESCE, COALESCE, COALESCE_ALL, CLEAR_BIN,
                                      REMOVE_BIN, GROW_BIN, GROW_BIN, GROW_BIN, PLACE_AT, PLACE_AT, PLACE_BEST, PLACE_BEST,
                                      PLACE_ANYWHERE, PLACE_ANYWHERE, RELEASE_ALL, RELEASE_ALL, RECUT, RECUT, PACK_FITTING,
                                      PACK_FITTING, PACK_FITTING, PACK_TOLD, PACK_TOLD, PACK_TOLD};
    uint32_t depth = within(0, 1) ? SIDE : 1;
    for (size_t i = 0; i < COMMANDS; i++)
        draw_command(&script[i], i == 0 ? ADD_BIN : kinds[within(0, sizeof kinds / sizeof *kinds - 1)], depth);
}

/* Nine boxes of one cell fill a square, eight of them are released, and joins make four strips of these, round the box that
   stays: no straight cut leaves all five whole. Boxes fill the strips, and the bin is not cut anew. The commands behind these
   stay as they were drawn. */
static void begin_with_pinwheel(command *script)
{
    static const uint64_t released[] = {0, 1, 2, 6, 7, 8, 3, 4};
    static const size_t joins[][3] = {{0, 0, 2}, {1, 1, 3}, {2, 2, 4}, {3, 3, 5}};
    static const rp_box strips[] = {{2, 1, 1, 0}, {1, 2, 1, 0}, {2, 1, 1, 0}, {1, 2, 1, 0}};
    size_t at = 0;
    script[at++] = (command){.kind = ADD_BIN, .size = {3, 3, 1}};
    for (size_t count = 6; count > 0; count -= 3) {
        command *it = &script[at++];
        *it = (command){.kind = PACK, .asked = {.box_count = count, .places = count}};
        for (size_t i = 0; i < count; i++)
            it->asked.boxes[i] = (rp_box){1, 1, 1, 0};
    }
    for (size_t i = 0; i < sizeof released / sizeof *released; i++)
        script[at++] = (command){.kind = RELEASE, .pick = released[i]};
    for (size_t i = 0; i < sizeof joins / sizeof *joins; i++)
        script[at++] = (command){COALESCE, .section = joins[i][0], .start = joins[i][1], .stop = joins[i][2]};
    /* Each strip is filled, so that no free sections and these boxes are from cuts. */
    for (size_t i = 0; i < 4; i++)
        script[at++] = (command){PLACE_BEST, .asked = {.boxes = {strips[i]}, .heuristic = RP_VOLUME}};
    script[at++] = (command){.kind = RECUT};
}

/* Three boxes that find space by their heights and not by their volumes. Then one box in two groups, which are excluded,
   and alone too: with all that may be wrong with this, and at last with nothing wrong. Each is a command of this kind. The commands
   behind these stay as they were drawn. */
static void begin_with_mistakes(command *script, enum kind kind)
{
    static const request best = {{{1, 3, 1, 0}, {3, 2, 1, 0}, {3, 1, 1, 0}}, {{0, 0}}, {{0, 0}}, 3, 0, 0, 3, RP_BEST, {{0, 0, 0}}, 0};
    static const request pair = {{{2, 2, 1, 1}}, {{0, 2}, {0, 0}}, {{1, 2}, {2, 1}, {1, 3}}, 1, 2, 3, 3, RP_BEST, {{0, 0, 0}}, 0};
    size_t at = 0;
    script[at++] = (command){.kind = ADD_BIN, .size = {4, 4, 1}};
    script[at++] = (command){.kind = kind, .asked = best};
    script[at++] = (command){.kind = ADD_BIN, .bin = 1, .size = {6, 3, 1}};
    script[at++] = (command){.kind = ADD_BIN, .bin = 2, .size = {6, 2, 1}};
    for (uint32_t wrong = 16; wrong-- > 0;) {
        command *it = &script[at++];
        *it = (command){.kind = kind, .asked = pair};
        it->asked.places += wrong & 1;
        it->asked.heuristic = wrong & 2 ? HEURISTICS : RP_BEST;
        it->asked.members[1].index = wrong & 4 ? 1 : 0;
        it->asked.exclusions[1].one = wrong & 8 ? 1 : 2;
    }
}

/* By hand: the best heuristic is that of heights; of several things that are wrong the first is answered; and the two groups go
   into two bins. */
static void check_mistakes(const answer *said)
{
    static const uint32_t faults[] = {RP_BAD_LENGTHS, RP_UNKNOWN_HEURISTIC, RP_UNKNOWN_BOX, RP_EQUAL_GROUPS, RP_DONE};
    check(said[1].status == RP_DONE && said[1].chosen == RP_HEIGHT, "the best heuristic is another one");
    for (uint32_t wrong = 16; wrong-- > 0;) {
        size_t first = 0;
        while (first < 4 && !(wrong >> first & 1))
            first++;
        check(said[4 + 15 - wrong].status == faults[first], "another thing that is wrong is answered first");
    }
    const rp_outstanding *pair = said[4 + 15].places;
    check(pair[0].placement.bin != pair[1].placement.bin, "excluded groups are in one bin");
}

/* A bin 7 of three cells, of which the first is free, and a box stands on the other two. */
static void make_parts(parts *it)
{
    static const rp_section first = {0, 0, 0, 1, 1, 1}, others = {1, 0, 0, 2, 1, 1};
    memset(it, 0, sizeof *it);
    it->bins[0] = (rp_saved_bin){7, {3, 1, 1}, 0, 1};
    it->bins[1] = (rp_saved_bin){9, {0, 1, 1}, 1, 0};
    it->sections[0] = first;
    it->placements[0] = (rp_standing){2, 5, 7, others};
    it->placements[1] = (rp_standing){4, 0, 9, {0, 0, 0, 0, 1, 1}};
    it->bin_count = it->placement_count = 2;
    it->section_count = 1;
    it->next_number = 5;
}

/* A pinwheel of free sections in a bin 3x3x1. */
static void make_pinwheel(parts *it)
{
    static const rp_section strips[] = {{0, 0, 0, 2, 1, 1}, {2, 0, 0, 1, 2, 1}, {1, 2, 0, 2, 1, 1}, {0, 1, 0, 1, 2, 1}, {1, 1, 0, 1, 1, 1}};
    make_parts(it);
    it->bins[1] = (rp_saved_bin){9, {3, 3, 1}, 0, 5};
    memcpy(&it->sections[1], strips, sizeof strips);
    it->section_count = 6;
    it->placement_count = 1;
}

/* By hand: the parts of a session, and then each thing that may be wrong with them. */
static void check_wrongs(void)
{
    static const rp_wrong right[] = {{0, 0, 0, 0}, {RP_WRONG_SECTIONS, 0, 0, 0}, {RP_WRONG_IDS, 1, 0, 0}, {RP_WRONG_NUMBER, 0, 1, 0},
                                     {RP_WRONG_NEXT, 0, 1, 0}, {RP_WRONG_UNKNOWN_BIN, 0, 1, 0}, {RP_WRONG_OUTSIDE, 0, 1, 0},
                                     {RP_WRONG_SHARED_CELL, 0, 0, 1}, {RP_WRONG_CELL_IN_NONE, 0, 0, 0}, {RP_WRONG_CUTS, 1, 0, 0}};
    static parts it;
    for (uint32_t kind = 0; kind < KINDS_OF_WRONG; kind++) {
        rp_session session = RP_NO_SESSION;
        rp_wrong said = {0, 0, 0, 0};
        make_parts(&it);
        it.bins[0].section_count += kind == RP_WRONG_SECTIONS;
        it.bins[1].id -= kind == RP_WRONG_IDS ? 2 : 0;
        it.placements[1].number -= kind == RP_WRONG_NUMBER ? 2 : 0;
        it.next_number -= kind == RP_WRONG_NEXT;
        it.placements[1].bin -= kind == RP_WRONG_UNKNOWN_BIN;
        it.placements[0].section.width += kind == RP_WRONG_OUTSIDE;
        it.placements[0].section.x -= kind == RP_WRONG_SHARED_CELL;
        it.placements[0].section.width -= kind == RP_WRONG_CELL_IN_NONE;
        if (kind == RP_WRONG_CUTS)
            make_pinwheel(&it);
        uint32_t status = rectangle_pack_session_restore(&session, saved_as(&it), &said);
        check(status == (kind ? RP_WRONG_PARTS : RP_DONE), "the status of parts by hand");
        check(said.kind == right[kind].kind && said.bin == right[kind].bin, "what is wrong with parts by hand");
        check(said.first == right[kind].first && said.second == right[kind].second, "which box is wrong of parts by hand");
        if (!kind) {
            check_saved(&session, &it);
            rectangle_pack_session_free(&session);
        }
    }
}

/* Makes the session of drawn parts with each request for memory refused in turn, alone and with all after it. How often memory was
   wanted. */
static int restore_each(void)
{
    static parts drawn;
    int wanted = 0;
    long all = 1;
    draw_parts(&drawn);
    for (long request = NONE; request < all; request++) {
        for (int alone = 0; alone < 2; alone++) {
            rp_session made = RP_NO_SESSION;
            refuse_requests(request, request == NONE || alone ? request : LONG_MAX);
            wanted += restore(&drawn, &made);
            if (request == NONE)
                all = requests;
            refuse_nothing();
            if (made.at)
                rectangle_pack_session_free(&made);
        }
    }
    return wanted;
}

/* Sessions of parts that are drawn. How often memory was wanted. */
static long restore_many(void)
{
    long wanted = 0;
    refuse_nothing();
    check_wrongs();
    for (int i = 0; i < DRAWN_PARTS; i++)
        check(!restore_drawn(), "want of memory is answered where all was there");
    for (int i = 0; i < REFUSED_PARTS; i++)
        wanted += restore_each();
    check(blocks == 0, "memory is not given back");
    for (int i = 1; i < KINDS_OF_WRONG; i++)
        check(wrongs[i] > 10, "a kind of wrong parts is drawn too seldom");
    check(restored > 1000 && wanted > 100, "the drawn parts show too little");
    return wanted;
}

static long total(const long *seen, const uint32_t *statuses, size_t count)
{
    long sum = 0;
    for (size_t i = 0; i < count; i++)
        sum += seen[statuses[i]];
    return sum;
}

/* Each status came, each kind of command was done, and what is read showed something. */
static void check_seen(const long *seen, const long *done, long wanted, const long *done_by, const long *best_by)
{
    int winners = 0;
    for (int i = 0; i < KINDS; i++)
        check(done[i] > 2, "a kind of command is done too seldom");
    for (int i = 0; i < HEURISTICS; i++) {
        check(done_by[i] > 2, "a heuristic is asked for too seldom");
        winners += best_by[i] > 0;
    }
    check(seen[RP_DONE] > 100 && seen[RP_NOT_ENOUGH_SPACE] > 10 && wanted > 100, "the drawn commands show too little");
    check(seen[RP_BAD_LENGTHS] > 5 && seen[RP_DUPLICATE_BIN] > 5, "the drawn commands are refused too seldom");
    check(seen[RP_UNKNOWN_BIN] > 5 && seen[RP_UNKNOWN_PLACEMENT] > 5, "the drawn commands name too little that is unknown");
    check(seen[RP_UNKNOWN_HEURISTIC] > 5 && seen[RP_UNKNOWN_BOX] > 5 && seen[RP_EQUAL_GROUPS] > 5, "too little is wrong");
    check(seen[RP_BIN_IN_USE] > 5 && seen[RP_TOO_LARGE] > 5, "bins are in use or too large too seldom");
    check(seen[RP_NOT_FREE] > 5 && seen[RP_UNKNOWN_AXIS] > 5, "too few places are not free, or too few axes unknown");
    check(seen[RP_NOT_FROM_CUTS] > 0, "each bin is cut anew");
    check(seen[RP_STEP_REFUSED] > 5, "steps are refused too seldom");
    check(winners > 2, "too few heuristics are the best");
    check(taken_up > 10 && short_arrays > 100 && plans_wanting > 100, "what is read of the drawn sessions shows too little");
}

int main(void)
{
    static const uint32_t refusals[] = {RP_BAD_LENGTHS, RP_DUPLICATE_BIN, RP_UNKNOWN_BIN, RP_UNKNOWN_PLACEMENT,
                                        RP_BIN_IN_USE, RP_TOO_LARGE, RP_NOT_FREE, RP_UNKNOWN_AXIS, RP_NOT_FROM_CUTS};
    static const uint32_t mistakes[] = {RP_UNKNOWN_HEURISTIC, RP_UNKNOWN_BOX, RP_EQUAL_GROUPS};
    static command script[COMMANDS];
    static answer answers[COMMANDS];
    long seen[STATUSES] = {0}, done[KINDS] = {0}, done_by[HEURISTICS] = {0}, best_by[HEURISTICS] = {0}, left = 0, wanted = 0;
    for (int i = 0; i <= SCRIPTS + 2; i++) {
        long before = no_plans;
        draw_script(script);
        if (i == SCRIPTS)
            begin_with_pinwheel(script);
        if (i > SCRIPTS)
            begin_with_mistakes(script, i == SCRIPTS + 1 ? PACK_COLLECTION : PACK_FITTING);
        wanted += run_each(script, answers);
        check(i != SCRIPTS || no_plans > before, "a pinwheel has a plan");
        if (i > SCRIPTS)
            check_mistakes(answers);
        for (size_t j = 0; j < COMMANDS; j++) {
            seen[answers[j].status]++;
            done[script[j].kind] += answers[j].status == RP_DONE;
            left += script[j].kind == PACK_FITTING && answers[j].status == RP_DONE && answers[j].left > 0;
            if (answers[j].status == RP_DONE && packs(&script[j]) && script[j].kind != PACK_TOLD)
                (script[j].asked.heuristic == RP_BEST ? best_by : done_by)[answers[j].chosen]++;
        }
    }
    check_seen(seen, done, wanted, done_by, best_by);
    check(left > 20, "boxes are left too seldom");
    long wanted_again = restore_many(), refusals_of_parts = 0;
    for (int i = 1; i < KINDS_OF_WRONG; i++)
        refusals_of_parts += wrongs[i];
    printf("sessions: %ld commands done, %ld without space, %ld refused by name, %ld wrong; memory was wanted %ld times\n",
           seen[RP_DONE], seen[RP_NOT_ENOUGH_SPACE], total(seen, refusals, 9), total(seen, mistakes, 3), wanted);
    printf("reading: %ld arrays too short, %ld times no plan, %ld times no memory for a plan; joins took up %ld sections\n",
           short_arrays, no_plans, plans_wanting, taken_up);
    printf("restoring: %ld sessions made of parts, %ld parts wrong; memory was wanted %ld times\n", restored, refusals_of_parts,
           wanted_again);
    wanted = cut_many();
    printf("cutting: boxes were parted %ld times, from no cuts %ld times, outside %ld times, in one cell %ld times; memory was refused "
           "%ld times\n", parted, from_no_cuts, found_outside, found_sharing, wanted);
    return 0;
}
