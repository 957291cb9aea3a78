/* rectangle_pack: packs boxes into bins, in two and three dimensions, without overlaps. rectangle_pack_boxes packs a list
   of boxes and keeps nothing; rectangle_pack_collection packs boxes that are in several groups, groups that may not share a
   bin, and by a heuristic of the caller's choice. A session keeps its bins from call to call: boxes are packed into them and
   released again, and it can be saved. rectangle_pack_check judges a packing, whoever made it, and rectangle_pack_straight_cuts
   finds the cuts that leave its boxes. rectangle_pack_least_bins says how many bins are needed, whatever packer is taken, and
   rectangle_pack_searched looks for a packing in few bins. All calls are proved; what is proved of them stands beside them, and as
   their contracts in crates/rectangle_pack_c/src (lib.rt, fitting.rt, telling.rt, session.rt, placing.rt, upkeep.rt, reading.rt,
   restoring.rt, judging.rt, cutting.rt, bounding.rt and searching.rt). C99 and C++.

   Sizes and corners are counted in cells. In two dimensions each depth is 1 and each z is 0. */
#ifndef RECTANGLE_PACK_H
#define RECTANGLE_PACK_H

#include <stddef.h>
#include <stdint.h>

#ifdef __cplusplus
extern "C" {
#endif

/* A bin, by its size. Any size will do, also 0. */
typedef struct rp_bin {
    uint32_t width, height, depth;
} rp_bin;

/* A box, by its size, also 0. The boxes of one call that have one group above 0 go into one bin together; in group 0 each box
   is alone. */
typedef struct rp_box {
    uint32_t width, height, depth;
    uint32_t group;
} rp_box;

/* Where a box stands: its bin, and its corner there. The bin is an index in the list of bins, but in a session the id that it
   was added under. Boxes are never turned. */
typedef struct rp_placement {
    uint32_t bin;
    uint32_t x, y, z;
} rp_placement;

/* What the calls answer. */
enum {
    /* It is done. Where boxes were packed, each has its placement. */
    RP_DONE = 0,
    /* For some group no bin that is not excluded for it takes all of its boxes, as the groups before it left the bins. It is not
       said which group this was. Without exclusions it is found by packing the groups one by one into new bins, in their order. */
    RP_NOT_ENOUGH_SPACE = 1,
    /* malloc or realloc answered NULL. */
    RP_OUT_OF_MEMORY = 2,
    /* placement_count is not exactly the number of boxes and members together (a longer array is refused too: give the count, and
       not how much the array could hold), or there are 2^32 of these or of bins, or more. */
    RP_BAD_LENGTHS = 3,
    /* The session has a bin of this id already. */
    RP_DUPLICATE_BIN = 4,
    /* The session has no bin of this id. */
    RP_UNKNOWN_BIN = 5,
    /* No placement of this number is outstanding in the session. */
    RP_UNKNOWN_PLACEMENT = 6,
    /* The numbers of the session's placements would reach 2^64 - 1, which is never given. */
    RP_NUMBERS_USED_UP = 7,
    /* The array is shorter than the list that is to go into it. How long the list is has been written, and nothing else. */
    RP_SHORT_ARRAY = 8,
    /* No straight cuts leave the free sections and the boxes of the bin. */
    RP_NO_PLAN = 9,
    /* There is no heuristic of this number. */
    RP_UNKNOWN_HEURISTIC = 10,
    /* A member names a box that is not there, or a step a box or a member. */
    RP_UNKNOWN_BOX = 11,
    /* An exclusion names one group twice. */
    RP_EQUAL_GROUPS = 12,
    /* Boxes are outstanding in the bin of the session. */
    RP_BIN_IN_USE = 13,
    /* A side of the bin would exceed 2^32 - 1. */
    RP_TOO_LARGE = 14,
    /* No free section of the bin of the session holds the box there. */
    RP_NOT_FREE = 15,
    /* There is no axis of this number. */
    RP_UNKNOWN_AXIS = 16,
    /* No straight cuts part the boxes that stand in the bin of the session. */
    RP_NOT_FROM_CUTS = 17,
    /* No session has these parts. */
    RP_WRONG_PARTS = 18,
    /* A box is outside the bin, or two share a cell. */
    RP_WRONG_BOXES = 19,
    /* A step of a packing as it is told cannot be done. Which is the first, and why, has been written. */
    RP_STEP_REFUSED = 20,
    /* The options have another size than rp_search_options. */
    RP_UNKNOWN_OPTIONS = 21
};

/* Packs all boxes into the bins; placements[i] is where boxes[i] stands.

   Proved, for all lists, wherever memory is refused:
   - The answer is one of the first four. It is RP_BAD_LENGTHS exactly under its condition.
   - RP_DONE: each box stands inside its bin, and the bin is one of the list; no two boxes share a cell of one bin; the
     boxes of one group above 0 are in one bin; and the placements are those of the packing rule. Equal bins and boxes get
     equal placements, in every call, on every machine.
   - RP_NOT_ENOUGH_SPACE comes only where the packing rule gets stuck, and never where another call with equal bins and
     boxes was done. Groups go in falling order of the sum of their volumes, each into the first bin, by rising volume, in
     which all of its boxes find a place in turn. Another order might succeed.
   - Where the answer is not RP_DONE nothing is written to placements.
   Only tested: that RP_OUT_OF_MEMORY comes only where malloc or realloc answered NULL, and that all memory is given back.

   The caller sees to it that, until the call returns, each list has as many entries as its count says, is aligned and not
   NULL (for an empty list any other aligned pointer will do), that nobody writes to them, and that nobody else reads the
   placements, which are written: they overlap neither of the other lists. It may be called from several threads at once,
   on placements of their own, but not from a signal handler, nor after fork in the child of a process with threads. It
   keeps nothing from call to call, and needs a processor of x86-64-v2. */
uint32_t rectangle_pack_boxes(const rp_bin *bins, size_t bin_count, const rp_box *boxes, size_t box_count,
                              rp_placement *placements, size_t placement_count);

/* A box in one group more, in which it is placed once more. index says which box of the list it is. With group 0 the box is
   alone once more. */
typedef struct rp_member {
    uint32_t index, group;
} rp_member;

/* Two groups that are excluded: within the call neither goes into a bin that the other went into. Boxes of earlier calls do not
   count. A pair with 0, or with a group that has no boxes, excludes nothing; but a pair of twice one number, also of 0, is
   RP_EQUAL_GROUPS where boxes are packed. */
typedef struct rp_exclusion {
    uint32_t one, other;
} rp_exclusion;

/* What is to be packed: boxes, members and exclusions, each a pointer and how many there are. A box of two groups has one of
   them in its own field and a member for the other. */
typedef struct rp_collection {
    const rp_box *boxes;
    size_t box_count;
    const rp_member *members;
    size_t member_count;
    const rp_exclusion *exclusions;
    size_t exclusion_count;
} rp_collection;

/* Boxes without members and exclusions: rp_collection collection = RP_COLLECTION(boxes, box_count);
   Lists of these can be put into it afterwards. No pointer of a collection is NULL, also not that of an empty list: here all
   three point to the boxes, which are not NULL. */
#define RP_COLLECTION(boxes, box_count)                                                                                    \
    {                                                                                                                      \
        (boxes), (size_t)(box_count), (const rp_member *)(const void *)(boxes), 0,                                         \
            (const rp_exclusion *)(const void *)(boxes), 0                                                                 \
    }

/* Heuristics: what a size is rated by. RP_HEIGHT is for pages of many sprites or glyphs, RP_VOLUME for bins that take few boxes,
   RP_BEST where nine packings do not take too long. Groups go in falling order of the sums of the rates of their boxes. Bins are tried in
   rising order of the rates of their whole sizes. And where a box is placed, the rest of the free section is cut so that the
   smallest of its three pieces, those without cells too, is as small as can be by its rate, and at a tie the second smallest. */
enum {
    /* Width times height times depth. */
    RP_VOLUME = 0,
    /* The height; at equal heights the width, and then the depth. */
    RP_HEIGHT = 1,
    /* The width, then the height, then the depth. */
    RP_WIDTH = 2,
    /* The depth, then the width, then the height. */
    RP_DEPTH = 3,
    /* Width plus height plus depth. */
    RP_SIDE_SUM = 4,
    /* The longest side, then the middle one, then the shortest. */
    RP_LONGEST_SIDE = 5,
    /* The shortest side, then the middle one, then the longest. */
    RP_SHORTEST_SIDE = 6,
    /* Height times depth. */
    RP_SIDE_AREA = 7,
    /* Each of these in turn, and then once more the one with which the bins are used best: so that the boxes with cells of this
       call are in the fewest bins, and at a tie the fewest of their cells in the last of these by index, or by id. It takes as
       long as nine packings. */
    RP_BEST = 0xffff
};

/* Packs a collection into the bins by a heuristic: placements[i] is where boxes[i] stands, and placements[box_count + j] where
   the box of members[j] stands for its group. So there are as many placements as boxes and members together. chosen, which is
   not NULL, gets the number of the heuristic that was packed with: the one that was asked for, or with RP_BEST the best. RP_DONE,
   RP_NOT_ENOUGH_SPACE or RP_OUT_OF_MEMORY; or, looked at first and in this order, RP_BAD_LENGTHS, RP_UNKNOWN_HEURISTIC,
   RP_UNKNOWN_BOX or RP_EQUAL_GROUPS.

   Proved, for all lists, wherever memory is refused:
   - The answer is one of these. Each of the last four comes exactly under its condition, where none before it comes.
   - RP_DONE: each box, and each member as a box in its group, stands inside its bin, and the bin is one of the list; no two of
     them share a cell of one bin; those of one group above 0 are in one bin; those of groups that are excluded are in different
     bins; and the placements are those of the packing rule. Equal bins and equal collections get equal placements with the same
     heuristic, in every call, on every machine.
   - With RP_BEST no other heuristic makes a better use of the bins, and each with a smaller number makes a worse one, or finds
     no space.
   - RP_NOT_ENOUGH_SPACE comes only where the packing rule gets stuck, with RP_BEST by each heuristic, and never where another
     call with equal bins, an equal collection and the same heuristic was done. Groups go in falling order of their rates; at
     equal rates boxes of group 0 go by their indices, members behind the boxes, and before the other groups, which go by their
     numbers. Each goes into the first bin, by rising rate and at equal rates by index, that is not excluded for it and in which
     all of its boxes find a place in turn. Another order might succeed.
   - Where the answer is not RP_DONE nothing is written.
   Only tested, and what the caller sees to, is as of rectangle_pack_boxes. The caller sees to it too that the collection and
   chosen are there and aligned, that nobody else reads or writes chosen, and that it overlaps nothing else. */
uint32_t rectangle_pack_collection(const rp_bin *bins, size_t bin_count, const rp_collection *collection, uint32_t heuristic,
                                   rp_placement *placements, size_t placement_count, uint32_t *chosen);

/* What is written of a packing of what fits: the number of the heuristic that packed, and how many boxes and members are left. */
typedef struct rp_fitted {
    uint32_t heuristic;
    size_t left;
} rp_fitted;

/* In place of a bin and of a number: the box is left. In one call no bin has this index; in a session a bin may have it as its id,
   but no placement has this number. */
#define RP_LEFT_BIN UINT32_C(0xffffffff)
#define RP_LEFT_NUMBER UINT64_C(0xffffffffffffffff)

/* Packs what fits of a collection into the bins, as rectangle_pack_collection packs it all: a group that no bin takes is left, and
   the next one is tried. Of a box that is left, the placement has the bin RP_LEFT_BIN and the corner (0, 0, 0). With RP_BEST the
   heuristic is that which leaves the fewest cells, and of several such the one that uses the bins best. RP_DONE or
   RP_OUT_OF_MEMORY; or, looked at first and in this order, RP_BAD_LENGTHS, RP_UNKNOWN_HEURISTIC, RP_UNKNOWN_BOX or
   RP_EQUAL_GROUPS.

   Proved, for all lists, wherever memory is refused:
   - The answer is one of these. Each of the last four comes exactly under its condition, where none before it comes.
   - RP_DONE: each box, and each member as a box in its group, that is not left stands inside its bin, and the bin is one of the
     list; no two of them share a cell of one bin; those of one group above 0 are all left, or all in one bin; those of groups that
     are excluded are in different bins; and the placements are those of the packing rule. Equal bins and equal collections get
     equal placements with the same heuristic, in every call, on every machine.
   - A group is left only where, at its turn, each bin is excluded for it or does not take all of its boxes.
   - With RP_BEST no other heuristic leaves fewer cells.
   - Where the answer is not RP_DONE nothing is written.
   Only tested, and what the caller sees to, is as of rectangle_pack_collection, with fitted for chosen. */
uint32_t rectangle_pack_fitting(const rp_bin *bins, size_t bin_count, const rp_collection *collection, uint32_t heuristic,
                                rp_placement *placements, size_t placement_count, rp_fitted *fitted);

/* A step of a packing as it is told: a group goes whole into a bin. index names the group by any box of it, or, as box_count + j,
   by its members[j]; a box of group 0 is alone. bin is an index in the list of bins, but in a session an id. heuristic is the
   number of one, by which the rest of each free section is cut; RP_BEST is none. */
typedef struct rp_step {
    uint32_t index, bin, heuristic;
} rp_step;

/* The first step that is refused, by its index, and why. */
typedef struct rp_refused {
    size_t step;
    uint32_t fault;
} rp_refused;

/* Why a step is refused: the first of these that is so. */
enum {
    /* There is no such bin. */
    RP_STEP_UNKNOWN_BIN = 1,
    /* An earlier step names the group. */
    RP_STEP_NAMED_TWICE = 2,
    /* A group that is excluded with this one went into the bin by an earlier step. */
    RP_STEP_EXCLUDED = 3,
    /* The bin, as the steps before left it, does not take all boxes of the group. */
    RP_STEP_NO_ROOM = 4
};

/* Packs a collection into the bins as it is told: step by step, each group into the bin of its step. A step may come from anyone: a
   person, an optimiser, a plan that was saved. Groups that no step names are left: of a box that is left, the placement has the
   bin RP_LEFT_BIN and the corner (0, 0, 0). RP_DONE, RP_OUT_OF_MEMORY, or RP_STEP_REFUSED, and then refused has the first step
   that cannot be done, and why; or, looked at first and in this order, RP_BAD_LENGTHS, RP_UNKNOWN_HEURISTIC, RP_UNKNOWN_BOX or
   RP_EQUAL_GROUPS.

   Proved, for all lists, wherever memory is refused:
   - The answer is one of these. Each of the last four comes exactly under its condition, where none before it comes.
   - RP_DONE: each box, and each member as a box in its group, whose group a step names stands inside the bin of that step, and
     the others are left; no two that stand share a cell of one bin; those of one group above 0 are all left, or all in one bin;
     and those of groups that are excluded are in different bins. Within its bin each box is placed as rectangle_pack_collection
     places it there, by the heuristic of the step.
   - RP_STEP_REFUSED: the steps before the one that is written can be done, and that one cannot, for the reason that is written.
   - Where the answer is not RP_DONE no placement is written, and where it is not RP_STEP_REFUSED refused is not.
   Only tested, and what the caller sees to, is as of rectangle_pack_collection, with refused for chosen, and with steps, to which
   nobody writes. */
uint32_t rectangle_pack_told(const rp_bin *bins, size_t bin_count, const rp_collection *collection, const rp_step *steps,
                             size_t step_count, rp_placement *placements, size_t placement_count, rp_refused *refused);

/* A session: bins that stay, and boxes that come and go, as in a texture atlas that is filled while a program runs.

       rp_session session = RP_NO_SESSION;
       rp_box hat = {10, 20, 1, 0};
       rp_outstanding place;
       rectangle_pack_session_new(&session);
       rectangle_pack_session_add_bin(&session, 7, 64, 64, 1);
       rectangle_pack_session_pack(&session, &hat, 1, &place, 1);
       rectangle_pack_session_release(&session, place.number);
       rectangle_pack_session_free(&session);

   Each of these calls but the last answers a status, which is to be looked at. bindings/c/examples/session.c does so.

   The caller names each bin by an id, any number. The session gives each box that it packs or places a number, by which the
   box is released. Until then, or until its bin is cleared, its placement is outstanding: the box stays where it is. What is
   free in a bin is kept as a list of free sections, each of them a box of free cells. A box goes to the corner of the newest
   free section that holds it; by rectangle_pack_session_place_best, of the one that it fits best; or to the place that
   rectangle_pack_session_place_at is given. What is left of that section is cut into new ones.

   Proved of every session, after each call, whatever was called before and wherever memory is refused:
   - Each cell of each bin is in exactly one free section or outstanding placement, and each of these is inside the bin. So
     no two outstanding boxes share a cell, and no cell is lost.
   - A call that answers anything but RP_DONE leaves the session as it was and writes nothing, but for RP_SHORT_ARRAY the
     length of the list, and for RP_WRONG_PARTS what is wrong. RP_BAD_LENGTHS, RP_DUPLICATE_BIN, RP_UNKNOWN_BIN,
     RP_UNKNOWN_PLACEMENT, RP_UNKNOWN_HEURISTIC, RP_UNKNOWN_BOX, RP_EQUAL_GROUPS, RP_BIN_IN_USE, RP_TOO_LARGE, RP_NOT_FREE and
     RP_UNKNOWN_AXIS come exactly under their conditions, where none that is looked at before comes; and RP_NUMBERS_USED_UP,
     RP_SHORT_ARRAY, RP_NO_PLAN, RP_NOT_FROM_CUTS and RP_WRONG_PARTS too, unless RP_OUT_OF_MEMORY is answered in their place.
   - No number is given twice in a session: placements are numbered 0, 1, 2 and so on, in the order of packing and placing; in a
     session of saved parts, from their next number on.
   - A session owns nothing that belongs to one thread, so it may go to another.
   Only tested: that RP_OUT_OF_MEMORY comes only where malloc or realloc answered NULL, and that free gives all memory
   back.

   The caller sees to it that:
   - rectangle_pack_session_new and rectangle_pack_session_restore get a handle that is as RP_NO_SESSION makes it, and every
     other call one that one of these two made with RP_DONE and that was not freed since. Nobody else writes to it.
   - A session is given to one call at a time, also where calls only read. It may go from thread to thread: the calls of one
     come before those of the next by a lock, the start or the join of a thread, or a sequentially consistent atomic.
     Different sessions have nothing in common, and may be called from several threads at once.
   - Where a handle is copied, one copy alone is used from then on. So a session may be moved.
   - Until a call returns, all that it is given a pointer to is there and aligned, what is not const overlaps nothing else, each
     list has as many entries as its count says, nobody writes to any of it, and nobody else reads what is not const. No pointer
     is NULL: for an empty list any other aligned pointer will do.
   - No call is made from a signal handler, nor after fork in the child of a process with threads. The calls need a processor
     of x86-64-v2. */
typedef struct rp_session {
    /* The library's own. */
    void *at;
} rp_session;

/* A handle without a session: rp_session session = RP_NO_SESSION; */
#define RP_NO_SESSION {0}

/* Where a box stands in a session, and the number by which it is released. */
typedef struct rp_outstanding {
    uint64_t number;
    rp_placement placement;
} rp_outstanding;

/* A free section of a bin, or where a box stands: the corner with the least coordinates, and the sides. */
typedef struct rp_section {
    uint32_t x, y, z;
    uint32_t width, height, depth;
} rp_section;

/* A volume in cells: low + high * 2^64. In two dimensions high is 0. */
typedef struct rp_volume {
    uint64_t low, high;
} rp_volume;

/* What is free and what is placed in a bin. */
typedef struct rp_stats {
    /* The volumes of the bin, of all its free sections and of all outstanding placements in it. */
    rp_volume bin_volume, free_volume, placed_volume;
    /* How many free sections and outstanding placements there are, boxes without cells too. */
    size_t free_sections, placements;
} rp_stats;

/* Makes a session without bins. RP_DONE, or RP_OUT_OF_MEMORY, and then the handle is still as RP_NO_SESSION makes it. */
uint32_t rectangle_pack_session_new(rp_session *session);

/* Frees a session, with all that is in it. The handle is then again as RP_NO_SESSION makes it. A handle without a session is
   not freed: unlike free(NULL), that is a mistake. */
void rectangle_pack_session_free(rp_session *session);

/* Adds a bin of this size, also 0, under an id of the caller's choice. All of it is free. It stays until it is taken out by
   rectangle_pack_session_remove_bin, or the session is freed. RP_DONE, RP_DUPLICATE_BIN or RP_OUT_OF_MEMORY. */
uint32_t rectangle_pack_session_add_bin(rp_session *session, uint32_t bin, uint32_t width, uint32_t height, uint32_t depth);

/* Packs all boxes into what is free in the bins; placements[i] is where boxes[i] stands, with its number. RP_DONE,
   RP_NOT_ENOUGH_SPACE, RP_OUT_OF_MEMORY, RP_BAD_LENGTHS, or after some 2^64 boxes RP_NUMBERS_USED_UP.

   Proved:
   - RP_DONE: each box is outstanding at its placement, in its size, under a number of its own that was not given before;
     the boxes of one group above 0 are in one bin; and what was outstanding before stays where it is.
   - RP_OUT_OF_MEMORY does not come where there are no boxes.
   - Groups go in falling order of the sum of their volumes; at equal sums boxes of group 0 go by their indices, and before
     the other groups, which go by their numbers. Each goes into the first bin, by rising volume and at equal volumes by id,
     in which all of its boxes, by their indices, find a place in turn.
   - RP_NOT_ENOUGH_SPACE comes only where for some group there is no such bin. Another order might succeed, and so might
     rectangle_pack_session_coalesce_all before it. */
uint32_t rectangle_pack_session_pack(rp_session *session, const rp_box *boxes, size_t box_count, rp_outstanding *placements,
                                     size_t placement_count);

/* Packs a collection into what is free in the bins, by a heuristic: placements[i] is where boxes[i] stands, with its number, and
   placements[box_count + j] where the box of members[j] stands for its group. chosen gets the number of the heuristic that was
   packed with. RP_DONE, RP_NOT_ENOUGH_SPACE, RP_OUT_OF_MEMORY, after some 2^64 boxes RP_NUMBERS_USED_UP; or, looked at first and
   in this order, RP_BAD_LENGTHS, RP_UNKNOWN_HEURISTIC, RP_UNKNOWN_BOX or RP_EQUAL_GROUPS. Groups are those of one call: a later
   one may use their numbers anew.

   Proved:
   - RP_DONE: each box, and each member as a box in its group with the index box_count + j, is outstanding at its placement, in
     its size, under a number of its own that was not given before; those of one group above 0 are in one bin; those of groups
     that are excluded are in different bins; and what was outstanding before stays where it is.
   - With RP_BEST no other heuristic makes a better use of the bins, and each with a smaller number makes a worse one, or finds
     no space. What stood in the bins before does not count.
   - RP_OUT_OF_MEMORY does not come where there are neither boxes nor exclusions.
   - The order of groups and that of bins are those of rectangle_pack_collection, with the bins' ids for their indices.
   - RP_NOT_ENOUGH_SPACE comes only where for some group each bin is excluded or does not take all of its boxes, as the groups
     before it left the bins; with RP_BEST, by each heuristic. Another order might succeed, and so might
     rectangle_pack_session_coalesce_all before it. */
uint32_t rectangle_pack_session_pack_collection(rp_session *session, const rp_collection *collection, uint32_t heuristic,
                                                rp_outstanding *placements, size_t placement_count, uint32_t *chosen);

/* Packs what fits of a collection into what is free in the bins, as rectangle_pack_fitting does it in bins of one call. Of a box that
   is left, the placement has the number RP_LEFT_NUMBER, the bin RP_LEFT_BIN and the corner (0, 0, 0). RP_DONE, RP_OUT_OF_MEMORY,
   after some 2^64 boxes RP_NUMBERS_USED_UP; or, looked at first and in this order, RP_BAD_LENGTHS, RP_UNKNOWN_HEURISTIC,
   RP_UNKNOWN_BOX or RP_EQUAL_GROUPS.

   Proved:
   - RP_DONE: each box, and each member as a box in its group with the index box_count + j, is outstanding at its placement, in its
     size, under a number of its own that was not given before; or it is left, with all of its group. Those of one group above 0
     are all left, or all in one bin; those of groups that are excluded are in different bins; and what was outstanding before
     stays where it is.
   - A group is left only where, at its turn, each bin is excluded for it or does not take all of its boxes.
   - With RP_BEST no other heuristic leaves fewer cells. What stood in the bins before does not count.
   - RP_OUT_OF_MEMORY does not come where there are neither boxes nor exclusions, and RP_NOT_ENOUGH_SPACE never does. */
uint32_t rectangle_pack_session_pack_fitting(rp_session *session, const rp_collection *collection, uint32_t heuristic,
                                             rp_outstanding *placements, size_t placement_count, rp_fitted *fitted);

/* Packs a collection into what is free in the bins as it is told, as rectangle_pack_told does it in bins of one call. Of a box that
   is left, the placement has the number RP_LEFT_NUMBER, the bin RP_LEFT_BIN and the corner (0, 0, 0). RP_DONE, RP_OUT_OF_MEMORY,
   after some 2^64 boxes RP_NUMBERS_USED_UP, or RP_STEP_REFUSED, and then refused has the first step that cannot be done, and why;
   or, looked at first and in this order, RP_BAD_LENGTHS, RP_UNKNOWN_HEURISTIC, RP_UNKNOWN_BOX or RP_EQUAL_GROUPS.

   Proved:
   - RP_DONE: each box, and each member as a box in its group with the index box_count + j, is outstanding at its placement, in its
     size, in the bin of the step that names its group, under a number of its own that was not given before; or no step names its
     group, and it is left. Those of groups that are excluded are in different bins; and what was outstanding before stays where it
     is.
   - RP_STEP_REFUSED: the steps before the one that is written can be done, and that one cannot, for the reason that is written.
   - RP_OUT_OF_MEMORY does not come where there are neither boxes nor exclusions.
   - Where the answer is not RP_DONE no placement is written, and where it is not RP_STEP_REFUSED refused is not. */
uint32_t rectangle_pack_session_pack_told(rp_session *session, const rp_collection *collection, const rp_step *steps,
                                          size_t step_count, rp_outstanding *placements, size_t placement_count,
                                          rp_refused *refused);

/* Releases a placement by its number, which is not outstanding any more. Its cells are free again, as the newest free section
   of its bin, the last of the list; a box without cells leaves none. RP_DONE, RP_UNKNOWN_PLACEMENT or RP_OUT_OF_MEMORY. */
uint32_t rectangle_pack_session_release(rp_session *session, uint64_t number);

/* Releases placements by their numbers, all or none, as rectangle_pack_session_release does it of each, in the order of the
   list, but in one pass. RP_DONE; RP_UNKNOWN_PLACEMENT where some number is not outstanding, or stands twice; or
   RP_OUT_OF_MEMORY.

   Proved: the session is as after a release of each, or as it was. RP_OUT_OF_MEMORY does not come where there are no
   numbers. */
uint32_t rectangle_pack_session_release_all(rp_session *session, const uint64_t *numbers, size_t count);

/* Joins free sections of a bin, two at a time, until no two share a whole face. A box goes into one free section, and not
   across two. A bin without boxes need not become one section: that depends on the order of releases and on where joins stand
   between them; rectangle_pack_session_clear_bin makes it one. RP_DONE or RP_UNKNOWN_BIN.

   Proved: the free cells are the same as before, and no two free sections of the bin share a whole face. */
uint32_t rectangle_pack_session_coalesce_all(rp_session *session, uint32_t bin);

/* Joins one free section of a bin, the one of this index in the list that rectangle_pack_session_free_sections writes, with
   those from index start to below end. The first of these that shares a whole face with it is taken up into it, and is gone
   from the list, where those behind it move up by one; the range, cut to the list, then ends one earlier. The same is done
   with what was joined, until none of the range shares a whole face with it. It looks at these sections alone, so that after
   a release it is cheaper than rectangle_pack_session_coalesce_all. Where the list has no such index nothing is joined.
   RP_DONE or RP_UNKNOWN_BIN.

   Proved: which sections are joined, and that the free cells are the same as before. */
uint32_t rectangle_pack_session_coalesce(rp_session *session, uint32_t bin, size_t index, size_t start, size_t end);

/* Makes a bin whole again: it has one free section, which is all of it, and does not count as coalesced. Its placements are no
   longer outstanding, and their numbers are not given again. RP_DONE, RP_UNKNOWN_BIN or RP_OUT_OF_MEMORY.

   Proved: the bin is as a new bin of its size, and the other bins and their placements stay as they are. */
uint32_t rectangle_pack_session_clear_bin(rp_session *session, uint32_t bin);

/* Takes a bin out of the session, in which no box is outstanding. Its id may be used anew. RP_DONE; or, looked at in this order,
   RP_UNKNOWN_BIN or RP_BIN_IN_USE. A bin in use is cleared first, or its boxes are released.

   Proved: the bin is there no more, and all else stays as it is. */
uint32_t rectangle_pack_session_remove_bin(rp_session *session, uint32_t bin);

/* Makes a bin larger by so many cells, also 0, on axis 0, 1 or 2: x, y or z. What is new is one more free section, the newest of
   the bin, the last of the list; where it has no cells there is none. RP_DONE; or, looked at first and in this order,
   RP_UNKNOWN_AXIS, RP_UNKNOWN_BIN or RP_TOO_LARGE; or RP_OUT_OF_MEMORY.

   Proved: all other free sections and all placements stay where they are. */
uint32_t rectangle_pack_session_grow_bin(rp_session *session, uint32_t bin, uint32_t axis, uint32_t by);

/* Cuts the free part of a bin anew, where boxes that came and went left it in many small sections: the first cuts part off the
   strips that are free beside all boxes, the thickest first. The section whose least side is the greatest stands first; an axis
   on which the bin has one cell does not count. Of those that tie that one does which was cut off the smallest part of the bin,
   and then the smallest. So a box goes to the corner of the narrowest section that holds it. A bin without boxes becomes one
   section. Whether the bin counts as coalesced stays. RP_DONE, RP_UNKNOWN_BIN, RP_NOT_FROM_CUTS or RP_OUT_OF_MEMORY.

   Proved: the free cells are the same as before; placements stay where they are; and straight cuts, each across a whole part,
   leave the new free sections and the boxes, so that rectangle_pack_session_cut_plan has a plan for them. */
uint32_t rectangle_pack_session_recut(rp_session *session, uint32_t bin);

/* Places a box at a place of the caller's choice: location is its corner and its sides, also 0. number gets the number of the
   placement, by which it is released. In rp_standing the index of the box is 0, as of a call with one box. One free section has
   to hold the whole box: where it lies across several, rectangle_pack_session_coalesce_all before it might help. RP_DONE; or,
   looked at first and in this order, RP_UNKNOWN_BIN, RP_NUMBERS_USED_UP or RP_NOT_FREE; or RP_OUT_OF_MEMORY. Nothing is written
   to number where the answer is not RP_DONE.

   Proved: the box is outstanding there, under a number that was not given before, and what was outstanding before stays where
   it is. */
uint32_t rectangle_pack_session_place_at(rp_session *session, uint32_t bin, const rp_section *location, uint64_t *number);

/* Places one box into the free section of a bin that it fits best: of those that hold it, the one of which it leaves the least
   on its tightest side, and of several such the newest. An axis on which the bin has one cell does not count. The box stands at
   the corner of the section, and the rest is cut by the heuristic of this number, which is not RP_BEST. The group of the box
   does not count. place gets its number, bin and corner; in rp_standing its index is 0. RP_DONE; or, looked at first and in this
   order, RP_UNKNOWN_HEURISTIC, RP_UNKNOWN_BIN, RP_NUMBERS_USED_UP or RP_NOT_ENOUGH_SPACE; or RP_OUT_OF_MEMORY. Nothing is
   written to place where the answer is not RP_DONE.

   Proved: the box is outstanding there, under a number that was not given before, and it fits no section of the bin better; and
   what was outstanding before stays where it is. RP_NOT_ENOUGH_SPACE comes only where no free section of the bin holds the
   box. */
uint32_t rectangle_pack_session_place_best(rp_session *session, uint32_t bin, const rp_box *one_box, uint32_t heuristic,
                                           rp_outstanding *place);

/* The same in any bin: in that one in which the box leaves the least, and of several such in the one with the least id.
   RP_UNKNOWN_BIN does not come. */
uint32_t rectangle_pack_session_place_best_anywhere(rp_session *session, const rp_box *one_box, uint32_t heuristic,
                                                    rp_outstanding *place);

/* Writes what is free and what is placed in a bin, and leaves the session as it is. RP_DONE or RP_UNKNOWN_BIN.

   Proved: the sums and the counts are those of the bin's free sections and outstanding placements, and the free and the
   placed volume add up to that of the bin. */
uint32_t rectangle_pack_session_stats(rp_session *session, uint32_t bin, rp_stats *stats);

/* The calls below read a session and leave it as it is.

   Those that write a list are given an array and its length, and write to count how long the list is. RP_DONE: the list stands
   at the beginning of the array, and what is behind it in the array is as before. RP_SHORT_ARRAY: the array is as before; with
   one of count entries the next call will do, if the session is not changed in between. So a first call may ask for the length,
   with an array of length 0. Only rectangle_pack_session_cut_plan takes memory, and makes a whole plan each time, also where the
   array is too short. */

/* An outstanding placement: its number; the index of its box among those of the call that packed it, for a member box_count plus
   its own index, and 0 for a box of rectangle_pack_session_place_at; its bin; and where it stands there. */
typedef struct rp_standing {
    uint64_t number;
    uint32_t index, bin;
    rp_section section;
} rp_standing;

/* In place of an axis in a step of a plan. */
enum { RP_LEAF = 3 };

/* A step of a cutting plan. axis is 0, 1 or 2: a straight cut across the whole part, at right angles to x, y or z, so many
   cells from the bin's corner as place says; the plan of the lower part follows, and then that of the upper part. axis is
   RP_LEAF: the part is not cut, since it is one free section, one box, or without cells; place is 0. */
typedef struct rp_cut_step {
    uint32_t axis, place;
} rp_cut_step;

/* The ids of all bins, in rising order. RP_DONE or RP_SHORT_ARRAY. */
uint32_t rectangle_pack_session_bins(rp_session *session, uint32_t *ids, size_t length, size_t *count);

/* The free sections of a bin, the newest last. RP_DONE, RP_SHORT_ARRAY or RP_UNKNOWN_BIN. */
uint32_t rectangle_pack_session_free_sections(rp_session *session, uint32_t bin, rp_section *sections, size_t length, size_t *count);

/* The outstanding placements of all bins, in the order of their numbers. RP_DONE or RP_SHORT_ARRAY. */
uint32_t rectangle_pack_session_outstanding(rp_session *session, rp_standing *placements, size_t length, size_t *count);

/* The outstanding placements of one bin, in the order of their numbers. RP_DONE, RP_SHORT_ARRAY or RP_UNKNOWN_BIN. It looks twice
   at each outstanding placement of the session. */
uint32_t rectangle_pack_session_outstanding_in(rp_session *session, uint32_t bin, rp_standing *placements, size_t length,
                                               size_t *count);

/* The cutting plan of a bin: straight cuts, each across a whole part, that leave its free sections and its boxes. RP_DONE,
   RP_SHORT_ARRAY, RP_NO_PLAN, RP_UNKNOWN_BIN or RP_OUT_OF_MEMORY.

   Proved: each part in which there are two free sections or boxes with cells, or more, is cut at its first open plane, by axis
   x, y, z and then by the least place; and RP_NO_PLAN comes only where no straight cuts leave these sections and boxes. While
   rectangle_pack_session_was_coalesced writes 0 of the bin it does not come. */
uint32_t rectangle_pack_session_cut_plan(rp_session *session, uint32_t bin, rp_cut_step *steps, size_t length, size_t *count);

/* Writes 1 where a call that joins sections was done for the bin since it was added or last cleared, also if it joined nothing,
   else 0. RP_DONE or RP_UNKNOWN_BIN. */
uint32_t rectangle_pack_session_was_coalesced(rp_session *session, uint32_t bin, uint32_t *coalesced);

/* Writes the size of a bin. RP_DONE or RP_UNKNOWN_BIN. */
uint32_t rectangle_pack_session_bin_size(rp_session *session, uint32_t bin, rp_bin *size);

/* The number that the next placement gets, or 2^64 - 1 where numbers are used up. */
uint64_t rectangle_pack_session_next_number(rp_session *session);

/* The calls above tell all parts of a session. Saved, they make the same session again, in another process too. */

/* A bin of a saved session: its id, its size, whether it counts as coalesced (1, or 0), and how many free sections it has. */
typedef struct rp_saved_bin {
    uint32_t id;
    rp_bin size;
    uint32_t coalesced, section_count;
} rp_saved_bin;

/* The parts of a session: its bins, as rectangle_pack_session_bins, rectangle_pack_session_bin_size and
   rectangle_pack_session_was_coalesced tell them, their ids rising; the free sections of all bins, as
   rectangle_pack_session_free_sections tells them, one bin after another in the order of the bins; the outstanding placements, as
   rectangle_pack_session_outstanding tells them, in the order of their numbers; and the number of the next placement. */
typedef struct rp_saved {
    const rp_saved_bin *bins;
    size_t bin_count;
    const rp_section *sections;
    size_t section_count;
    const rp_standing *placements;
    size_t placement_count;
    uint64_t next_number;
} rp_saved;

/* What may be wrong with parts. It is looked for in this order: the counts of the bins; their ids; bin by bin, whether a free
   section is outside, and then whether two share a cell; placement by placement, its number and its bin; and bin by bin, whether
   a box is outside, two share a cell, some cell is in none, or no straight cuts leave them. The boxes of a bin are its free
   sections, and behind them its placements, each in the order of their list. */
enum {
    /* The counts of the bins do not add up to section_count. */
    RP_WRONG_SECTIONS = 1,
    /* The id of the bin is not above that of the bin before it. */
    RP_WRONG_IDS = 2,
    /* The number of the placement first is not above that of an earlier one. */
    RP_WRONG_NUMBER = 3,
    /* The number of the placement first is not below next_number. */
    RP_WRONG_NEXT = 4,
    /* The bin of the placement first is not there. */
    RP_WRONG_UNKNOWN_BIN = 5,
    /* The box first of the bin is not inside it. */
    RP_WRONG_OUTSIDE = 6,
    /* The boxes first and second of the bin share a cell. */
    RP_WRONG_SHARED_CELL = 7,
    /* Some cell of the bin is in none of its boxes. */
    RP_WRONG_CELL_IN_NONE = 8,
    /* The bin does not count as coalesced, and no straight cuts leave its boxes. */
    RP_WRONG_CUTS = 9
};

/* What is wrong: kind is one of these; bin is an index in the list of bins; first and second are indices in the list of
   placements, or among the boxes of the bin; and what the kind does not name is 0. */
typedef struct rp_wrong {
    uint32_t kind;
    size_t bin, first, second;
} rp_wrong;

/* Makes a session of saved parts, of any origin: what is read of it is what was saved. RP_DONE; RP_WRONG_PARTS, and then wrong says
   what is wrong; or RP_OUT_OF_MEMORY. session is a handle as RP_NO_SESSION makes it, and stays one where the answer is not RP_DONE.
   Nothing is written to wrong where the answer is not RP_WRONG_PARTS. A bin counts as coalesced where its number is not 0.

   Proved:
   - RP_DONE: the session has these parts, and all that is proved of every session holds of it. So no file, whoever wrote it,
     makes a session that gives a cell twice.
   - RP_WRONG_PARTS: what wrong says is so, and it is the first that is looked for; and no session has these parts.
   Its time is about that of a sort of all placements and free sections, but for boxes that were laid to defy it, which may take
   the square. */
uint32_t rectangle_pack_session_restore(rp_session *session, const rp_saved *saved, rp_wrong *wrong);

/* The judge: whether boxes that stand somewhere are a packing, whoever put them there. */

/* A box that is to stand in a bin, once: its size and its group, as rp_box has them, and how it may be turned. turns is the sum of
   1 where height and depth may change places, 2 where width and depth may, and 4 where width and height may. A sprite or a panel
   that may be turned has 4. Other bits do not count. */
typedef struct rp_entry {
    rp_box rect;
    uint32_t turns;
} rp_entry;

/* Where somebody put a box: the index of the box in the list of entries, that of the bin in the list of bins, and where the box
   stands there, in its size there. */
typedef struct rp_claim {
    uint32_t entry, bin;
    rp_section section;
} rp_claim;

/* What may be wrong: the first four with one claim, in the order in which it is looked for; the next four with two claims, in
   their order; and the last where all claims may stand. */
enum {
    /* Nothing: it is a packing. */
    RP_NO_FAULT = 0,
    /* There is no bin of this index. */
    RP_FAULT_UNKNOWN_BIN = 1,
    /* There is no box of this index. */
    RP_FAULT_UNKNOWN_BOX = 2,
    /* The size is not that of the box, nor one in which it may be turned. */
    RP_FAULT_WRONG_SIZE = 3,
    /* The box is not inside the bin. */
    RP_FAULT_OUTSIDE = 4,
    /* Two claims place one box. */
    RP_FAULT_PLACED_TWICE = 5,
    /* Two claims share a cell of a bin. */
    RP_FAULT_SHARES_CELL = 6,
    /* Two claims are of one group, in two bins. */
    RP_FAULT_GROUP_IN_TWO_BINS = 7,
    /* Two claims are of groups that are excluded, in one bin. */
    RP_FAULT_EXCLUDED_TOGETHER = 8,
    /* No claim places the box. */
    RP_FAULT_NOT_PLACED = 9
};

/* What is wrong. first is the index of the claim, or of the earlier of two claims, or, of RP_FAULT_NOT_PLACED, of the box; second
   is that of the later of two claims. What does not apply is 0. */
typedef struct rp_fault {
    uint32_t kind, first, second;
} rp_fault;

/* Judges a packing, whoever made it. Claims are looked at in turn: what is wrong with the first one that may not stand with those
   before it is written to fault. What is wrong with this claim alone comes first, then what is wrong with it and an earlier one, the
   first of these. Where all may stand, it is the first box that no claim places. RP_DONE, RP_OUT_OF_MEMORY, or
   RP_BAD_LENGTHS where there are 2^32 bins, boxes or claims, or more; there may be any number of exclusions.

   Proved, for all lists, wherever memory is refused:
   - RP_DONE: kind is RP_NO_FAULT exactly where each box is placed once, in one of the sizes in which it may stand, inside its bin;
     no two boxes share a cell of one bin; the boxes of one group above 0 are in one bin; and those of groups that are excluded are
     in different bins. Else it is the fault that is said above. An exclusion with 0, or of a group with itself, which a packing
     refuses, excludes nothing here.
   - Where the answer is not RP_DONE nothing is written to fault.
   Only tested, and what the caller sees to, is as of rectangle_pack_boxes. The caller sees to it too that fault is there and
   aligned, that nobody else reads or writes it, and that it overlaps nothing else. */
uint32_t rectangle_pack_check(const rp_bin *bins, size_t bin_count, const rp_entry *entries, size_t entry_count,
                              const rp_exclusion *exclusions, size_t exclusion_count, const rp_claim *claims, size_t claim_count,
                              rp_fault *fault);

/* Writes to least how many of the bins a collection needs at least, whatever packer places it. A packing here puts each box, and
   each member as a box, inside a bin, so that no two share a cell of one bin, and those of groups that are excluded are in different
   bins; boxes of one group may be in different bins. turns[i] says how box i may be turned, as the turns of rp_entry; a member is
   turned as its box. A box behind the end of the list is not turned: a list of length 0 turns none. It is a lower bound: more bins
   may be needed. RP_DONE; RP_NOT_ENOUGH_SPACE where it is shown that there is no packing at all; RP_OUT_OF_MEMORY; or, looked at
   first and in this order, RP_BAD_LENGTHS where there are 2^32 bins or more, or boxes and members together, RP_UNKNOWN_BOX or
   RP_EQUAL_GROUPS.

   Proved, for all lists, wherever memory is refused:
   - RP_DONE: each packing of these boxes into these bins, whoever made it, has boxes in at least so many bins. So a packing with no
     more than that uses the fewest bins.
   - RP_NOT_ENOUGH_SPACE: there is no packing of all of them into these bins.
   - Each of the last three comes exactly under its condition, where none before it comes.
   - Where the answer is not RP_DONE nothing is written.
   A packing is what rectangle_pack_check finds no fault with, but that boxes of one group may be in different bins. Only tested,
   and what the caller sees to, is as of rectangle_pack_collection, with least for chosen; turns too has as many entries as its
   count says. */
uint32_t rectangle_pack_least_bins(const rp_bin *bins, size_t bin_count, const rp_collection *collection, const uint32_t *turns,
                                   size_t turn_count, size_t *least);

/* Straight cuts, each across the whole of its part, that part a bin into boxes that stand in it and what is free beside them,
   whoever put the boxes there: the steps of the plan go to an array, as those of rectangle_pack_session_cut_plan, and how many
   they are. Boxes without cells have no part in it, but are to be inside too. RP_DONE; RP_SHORT_ARRAY; RP_NO_PLAN where no such
   cuts leave the boxes whole; RP_WRONG_BOXES, and then wrong says which box is outside, or which two share a cell, by
   RP_WRONG_OUTSIDE or RP_WRONG_SHARED_CELL and their indices; or RP_OUT_OF_MEMORY. Nothing else is written but for the first two.

   Proved, for all lists, wherever memory is refused:
   - RP_DONE: the plan parts the bin into the boxes and into free sections, each cut at the first place of the first axis that
     goes through none of them; the free sections are those to which rectangle_pack_session_recut parts what is free.
   - RP_NO_PLAN: there are no such cuts, whatever is free.
   - RP_WRONG_BOXES: what wrong says is so, and it is the first: boxes that are outside come before those that share a cell.
   Only tested, and what the caller sees to, is as of rectangle_pack_check, of steps, count and wrong too. */
uint32_t rectangle_pack_straight_cuts(const rp_bin *bin, const rp_section *boxes, size_t box_count, rp_cut_step *steps,
                                      size_t length, size_t *count, rp_wrong *wrong);

/* What it costs to use a bin: its index in the list of bins, but in a session its id; and the cost. */
typedef struct rp_cost {
    uint32_t bin;
    uint64_t cost;
} rp_cost;

/* How a search goes on, and what it may do:
       rp_search_options options = RP_SEARCH_OPTIONS(20000);
   No pointer is NULL, also not that of an empty list. */
typedef struct rp_search_options {
    /* sizeof(rp_search_options), so that a later library knows which fields there are. */
    size_t size;
    /* After so many tries a search in one call ends. A try packs the boxes of some bins anew; a million take some seconds. */
    uint64_t tries;
    /* Equal seeds search alike. */
    uint64_t seed;
    /* 0: all is to be placed. Else groups that find no space may be left. */
    uint32_t may_leave;
    /* How each box may be turned, as rp_entry has it. A box behind the end of the list is not turned. A member is turned as its
       box is. */
    const uint32_t *turns;
    size_t turn_count;
    /* What bins cost. One that is not in the list costs 1; of several entries of a bin the first counts. */
    const rp_cost *costs;
    size_t cost_count;
} rp_search_options;

/* So many tries, with the seed 0; nothing may be left, no box is turned, and each bin costs 1. */
#define RP_SEARCH_OPTIONS(tries)                                                                                           \
    {                                                                                                                      \
        sizeof(rp_search_options), (tries), 0, 0, (const uint32_t *)sizeof(uint32_t), 0, (const rp_cost *)sizeof(rp_cost), 0 \
    }

/* Where a box stands that may be turned: the index of its bin, or RP_LEFT_BIN, and its place there, in its size as it stands. */
typedef struct rp_location {
    uint32_t bin;
    rp_section section;
} rp_location;

/* What a search found. */
typedef struct rp_searched {
    /* How many boxes and members are left, and how many bins have a box. */
    size_t left, used;
    /* No packer that places all boxes uses fewer bins than this; RP_NO_PACKING where none can place them. */
    size_t least;
    /* 1 where nothing is left and no more bins are used than are needed, else 0. */
    uint32_t is_optimal;
    /* How many tries were made. */
    uint64_t tries;
} rp_searched;

#define RP_NO_PACKING ((size_t)UINT64_C(0xffffffffffffffff))

/* Searches for a packing of a collection into the bins that is better than that of any heuristic: fewer cells are left, or as
   many and the bins cost less, or as much and fewer bins are used, or as many and the last one has fewer cells. Of a box that is
   left, the placement has the bin RP_LEFT_BIN, and all of its section is 0. RP_DONE; RP_NOT_ENOUGH_SPACE where nothing may be left
   and no way was found; RP_OUT_OF_MEMORY; or, looked at first and in this order, RP_UNKNOWN_OPTIONS, RP_BAD_LENGTHS,
   RP_UNKNOWN_BOX or RP_EQUAL_GROUPS.

   Proved, for all lists, wherever memory is refused:
   - The answer is one of these. Each of the last four comes exactly under its condition, where none before it comes.
   - RP_DONE: each box, and each member as a box in its group, that is not left stands inside its bin, and the bin is one of the
     list, in a size in which it may stand; no two of them share a cell of one bin; those of one group above 0 are all left, or
     all in one bin; those of groups that are excluded are in different bins. Where nothing may be left, nothing is.
   - No heuristic leaves fewer cells, or as many in bins that cost less, or as much with a better use of the bins.
   - No packer that places all boxes, turned as they may be, with the groups that are excluded in different bins, uses fewer bins
     than least. So where is_optimal is 1, no packer uses fewer.
   - RP_NOT_ENOUGH_SPACE comes only where nothing may be left, and the packing rule gets stuck with each heuristic.
   - Where the answer is not RP_DONE nothing is written.
   Only tested: that equal calls get equal answers. What the caller sees to is as of rectangle_pack_collection, with searched for
   chosen, and with the options and their lists. */
uint32_t rectangle_pack_searched(const rp_bin *bins, size_t bin_count, const rp_collection *collection,
                                 const rp_search_options *options, rp_location *placements, size_t placement_count,
                                 rp_searched *searched);

/* The same into what is free in the bins of a session. Of a box that is left, the placement has the number RP_LEFT_NUMBER, the
   bin RP_LEFT_BIN, and 0 in all other places; of each other one the index is that of the box. For used, least and is_optimal it
   does not count what stood in the bins before. RP_NUMBERS_USED_UP can come too, after some 2^64 boxes.

   Proved: what rectangle_pack_searched says; and each box that is not left is outstanding at its placement, under a number of its
   own that was not given before. What is not done leaves the session as it was. */
uint32_t rectangle_pack_session_pack_searched(rp_session *session, const rp_collection *collection, const rp_search_options *options,
                                              rp_standing *placements, size_t placement_count, rp_searched *searched);

/* A search in pieces, for a program that shows how far it is, or stops it:

       rp_search search = RP_NO_SEARCH;
       rp_progress progress = {0};
       rectangle_pack_search_begin(bins, bin_count, &collection, &options, &search);
       while (!progress.is_over && progress.tries < 1000000) {
           rectangle_pack_search_run(&search, 1000, &progress);
           printf("%zu bins\n", progress.bins);
       }
       rectangle_pack_found(bins, bin_count, &collection, &options, &search, placements, placement_count, &searched);

   Each of these calls answers a status, which is to be looked at. What the caller sees to for a session, he sees to for a search:
   rectangle_pack_search_begin and rectangle_pack_session_search_begin get a handle that is as RP_NO_SEARCH makes it, and every
   other call one that one of these two made with RP_DONE, and that has not been freed or ended since. */
typedef struct rp_search {
    /* The library's own. */
    void *at;
} rp_search;

/* A handle without a search: rp_search search = RP_NO_SEARCH; */
#define RP_NO_SEARCH {0}

/* How far a search is: how many tries were made, the cells of what is left, what the bins cost that are used, how many these are,
   and 1 where there is nothing to be bettered, so that no more tries are made. */
typedef struct rp_progress {
    uint64_t tries;
    rp_volume left, cost;
    size_t bins;
    uint32_t is_over;
} rp_progress;

/* Begins a search for such a packing. No try is made yet. RP_DONE; RP_OUT_OF_MEMORY; or, looked at first and in this order,
   RP_UNKNOWN_OPTIONS, RP_BAD_LENGTHS where there are 2^32 boxes and members or bins, or more, RP_UNKNOWN_BOX or RP_EQUAL_GROUPS.
   But for RP_DONE the handle is as before. */
uint32_t rectangle_pack_search_begin(const rp_bin *bins, size_t bin_count, const rp_collection *collection,
                                     const rp_search_options *options, rp_search *search);

/* The same for the bins of a session, as they are now. The session stays as it is. */
uint32_t rectangle_pack_session_search_begin(rp_session *session, const rp_collection *collection, const rp_search_options *options,
                                             rp_search *search);

/* Makes so many tries, or fewer where there is nothing to be bettered, and writes how far the search is. Tries that are made in
   several calls find what they find in one. RP_DONE; or RP_OUT_OF_MEMORY, and then the search is freed, and nothing is written. */
uint32_t rectangle_pack_search_run(rp_search *search, uint64_t tries, rp_progress *progress);

/* Frees a search that is not to be ended. The handle is then again as RP_NO_SEARCH makes it. */
void rectangle_pack_search_free(rp_search *search);

/* Packs what a search found, or what a heuristic finds where that is as good, into the bins that it was begun with, the collection
   and the options the same too. Where they are not, what it found may be of no use; what is proved holds nevertheless. The tries
   of the options do not count. What is answered, written and proved is as of rectangle_pack_searched. The handle has no search
   afterwards, whatever is answered. */
uint32_t rectangle_pack_found(const rp_bin *bins, size_t bin_count, const rp_collection *collection,
                              const rp_search_options *options, rp_search *search, rp_location *placements,
                              size_t placement_count, rp_searched *searched);

/* The same into the bins of the session, as rectangle_pack_session_pack_searched does it, with a search that was begun for it. Where
   the session has changed since, what was found may be of no use. */
uint32_t rectangle_pack_session_pack_found(rp_session *session, const rp_collection *collection, const rp_search_options *options,
                                           rp_search *search, rp_standing *placements, size_t placement_count,
                                           rp_searched *searched);

#ifdef __cplusplus
}
#endif

#endif
