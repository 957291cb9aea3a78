/* A model of the session that keeps a page full: best fit by the tightest side, the newest section at ties, and a recut from the
   boxes alone each time that boxes have gone, which puts the thickest free section first, of equally thick ones that of the
   smallest room. README.md says what it found.

   The code is written over axes; with AXES 3 and three sizes a box it is the same policy for bins. */
#include "workload.h"
#include <limits.h>
#include <stdlib.h>
#include <string.h>

enum { AXES = 2, SIDES = 2 * AXES, FEW = 64, MOST = 1 << 15 };

typedef struct {
    unsigned from[AXES], to[AXES];
} Rect;

const char *const allocator_name = "model: best fit, cut anew";
static unsigned long long looked_at;

/* ---- free sections: a list, the newest last ---- */

static Rect sections[MOST];
static unsigned thin_sides[MOST]; /* the thinnest side of each */
static int section_count;

typedef unsigned long long Volume;

static unsigned side(const Rect *of, int axis) { return of->to[axis] - of->from[axis]; }

/* The product of all sides but that of one axis; of all sides where the axis is none. */
static Volume across(const Rect *of, int axis) {
    Volume product = 1;
    for (int other = 0; other < AXES; other++)
        if (other != axis) product *= side(of, other);
    return product;
}

static Volume volume(const Rect *of) { return across(of, AXES); }

static unsigned least_of(const unsigned *values) {
    unsigned least = values[0];
    for (int axis = 1; axis < AXES; axis++)
        if (values[axis] < least) least = values[axis];
    return least;
}

static void add(Rect section) {
    unsigned sides[AXES];
    for (int axis = 0; axis < AXES; axis++) sides[axis] = side(&section, axis);
    unsigned thin = least_of(sides);
    if (thin == 0) return;
    sections[section_count] = section, thin_sides[section_count] = thin;
    section_count++;
}

static void take_out(int at) {
    size_t later = (size_t)(--section_count - at);
    memmove(sections + at, sections + at + 1, sizeof *sections * later);
    memmove(thin_sides + at, thin_sides + at + 1, sizeof *thin_sides * later);
}

/* What is left on the tightest side, and UINT_MAX where the box is not held. */
static unsigned left_over(const Rect *section, const unsigned *size) {
    unsigned rests[AXES];
    for (int axis = 0; axis < AXES; axis++) {
        if (side(section, axis) < size[axis]) return UINT_MAX;
        rests[axis] = side(section, axis) - size[axis];
    }
    return least_of(rests);
}

/* The section that leaves the least on its tightest side, at ties the newest: nothing is better than one that leaves nothing. Most
   sections are passed by their thinnest side alone. */
static int best_section(const unsigned *size) {
    unsigned least = UINT_MAX, thin = least_of(size);
    int best = -1, i = section_count - 1;
    for (; i >= 0 && least > 0; i--) {
        if (thin_sides[i] < thin) continue;
        unsigned left = left_over(&sections[i], size);
        if (left < least) least = left, best = i;
    }
    looked_at += (unsigned)(section_count - 1 - i);
    return best;
}

/* ---- one box into a section: of the two ways to cut the rest the one with the smallest piece; the smaller piece is newer ---- */

typedef struct {
    Rect larger, smaller;
} Rests;

static Rests cut(const Rect *of, const Rect *box, int whole) {
    Rect whole_rest = *of, other = *of;
    whole_rest.from[whole] = box->to[whole];
    other.from[!whole] = box->to[!whole], other.to[whole] = box->to[whole];
    if (volume(&whole_rest) < volume(&other)) return (Rests){other, whole_rest};
    return (Rests){whole_rest, other};
}

static void cut_rest(const Rect *of, const Rect *box) {
    Rests tall = cut(of, box, 0), flat = cut(of, box, 1);
    Volume t = volume(&tall.smaller), f = volume(&flat.smaller);
    Rests *rests = t < f || (t == f && volume(&tall.larger) < volume(&flat.larger)) ? &tall : &flat;
    add(rests->larger), add(rests->smaller);
}

/* ---- recut: the rooms, parts of the page, each with its boxes as a stretch of one list ---- */

static Rect boxes[MOST];
static unsigned starts[AXES][MOST]; /* of the boxes */
static int listed[MOST];
static Volume rooms[MOST]; /* for each free section the volume of the room that it was cut from */

/* By the keys, stable: insertion where there are few, else by bytes. */
static void sort(int *items, int count, const unsigned *key) {
    static int other[MOST];
    if (count <= FEW) {
        for (int i = 1; i < count; i++) {
            int item = items[i], at = i;
            for (; at > 0 && key[items[at - 1]] > key[item]; at--) items[at] = items[at - 1];
            items[at] = item;
        }
        return;
    }
    unsigned most = 0;
    for (int i = 0; i < count; i++) most |= key[items[i]];
    for (unsigned shift = 0; shift < 32 && most >> shift; shift += 8) {
        int starts_of[257] = {0};
        for (int i = 0; i < count; i++) starts_of[(key[items[i]] >> shift & 255) + 1]++;
        for (int i = 0; i < 256; i++) starts_of[i + 1] += starts_of[i];
        for (int i = 0; i < count; i++) other[starts_of[key[items[i]] >> shift & 255]++] = items[i];
        memcpy(items, other, sizeof *items * (size_t)count);
    }
}

static Rect bounds_of(const int *of, int count) {
    Rect bounds = boxes[of[0]];
    for (int i = 1; i < count; i++)
        for (int axis = 0; axis < AXES; axis++) {
            if (boxes[of[i]].from[axis] < bounds.from[axis]) bounds.from[axis] = boxes[of[i]].from[axis];
            if (boxes[of[i]].to[axis] > bounds.to[axis]) bounds.to[axis] = boxes[of[i]].to[axis];
        }
    return bounds;
}

/* What a room has beyond the bounds on one side, over its whole width: 2 * axis is the low side, one more the high one. */
static Rect strip_at(Rect room, const Rect *bounds, int at_side) {
    int axis = at_side / 2;
    if (at_side % 2) room.from[axis] = bounds->to[axis];
    else room.to[axis] = bounds->from[axis];
    return room;
}

/* How far a room goes beyond the bounds on one side. */
static unsigned thickness(const Rect *room, const Rect *bounds, int at_side) {
    int axis = at_side / 2;
    return at_side % 2 ? room->to[axis] - bounds->to[axis] : bounds->from[axis] - room->from[axis];
}

/* The strips of a room round the bounds become free sections, the thickest first. */
static void cut_strips(Rect room, const Rect *bounds) {
    for (Volume all = volume(&room);;) {
        int thickest = 0;
        for (int at_side = 1; at_side < SIDES; at_side++)
            if (thickness(&room, bounds, at_side) > thickness(&room, bounds, thickest)) thickest = at_side;
        if (thickness(&room, bounds, thickest) == 0) return;
        rooms[section_count] = all;
        add(strip_at(room, bounds, thickest));
        if (thickest % 2) room.to[thickest / 2] = bounds->to[thickest / 2];
        else room.from[thickest / 2] = bounds->from[thickest / 2];
    }
}

/* How many boxes stand before the first open plane, in the order of their starts; all where no plane is open. */
static int before_plane(const int *of, int count, int axis) {
    unsigned reach = boxes[of[0]].to[axis];
    for (int i = 1; i < count; i++) {
        looked_at++;
        if (boxes[of[i]].from[axis] >= reach) return i;
        if (boxes[of[i]].to[axis] > reach) reach = boxes[of[i]].to[axis];
    }
    return count;
}

/* Cuts a room: its strips, then at each open plane of the first axis that has one. 0 where none has. */
static int cut_part(Rect room, int *of, int count) {
    Rect bounds = bounds_of(of, count);
    cut_strips(room, &bounds);
    if (count == 1) return 1;
    for (int axis = 0; axis < AXES; axis++) {
        sort(of, count, starts[axis]);
        int parted = before_plane(of, count, axis);
        if (parted == count) continue;
        for (Rect slab = bounds; count > 0; of += parted, count -= parted, slab.from[axis] = slab.to[axis]) {
            parted = before_plane(of, count, axis);
            slab.to[axis] = parted == count ? bounds.to[axis] : boxes[of[parted]].from[axis];
            if (!cut_part(slab, of, parted)) return 0;
        }
        return 1;
    }
    return 0;
}

typedef struct {
    Rect section;
    unsigned thin;
    Volume room;
} Ranked;

static int compare(Volume a, Volume b) { return a < b ? -1 : a > b; }

/* By the thinnest side, the thickest first; of those that tie that of the smallest room, and then the smallest. */
static int comes_before(const void *one, const void *other) {
    const Ranked *a = one, *b = other;
    if (a->thin != b->thin) return compare(b->thin, a->thin);
    if (a->room != b->room) return compare(a->room, b->room);
    return compare(volume(&a->section), volume(&b->section));
}

static void put_in_order(void) {
    static Ranked ranked[MOST];
    int count = section_count;
    for (int i = 0; i < count; i++) ranked[i] = (Ranked){sections[i], thin_sides[i], rooms[i]};
    qsort(ranked, (size_t)count, sizeof *ranked, comes_before);
    section_count = 0;
    for (int i = 0; i < count; i++) add(ranked[i].section);
}

static int recut(const Place *stand, int count) {
    section_count = 0;
    Rect page = {{0, 0}, {PAGE, PAGE}};
    if (!count) {
        add(page);
        return 1;
    }
    for (int i = 0; i < count; i++) {
        boxes[i] = (Rect){{stand[i].x, stand[i].y}, {stand[i].x + stand[i].w, stand[i].y + stand[i].h}};
        for (int axis = 0; axis < AXES; axis++) starts[axis][i] = boxes[i].from[axis];
        listed[i] = i;
    }
    int is_parted = cut_part(page, listed, count);
    put_in_order();
    return is_parted;
}

/* ---- what the workload calls ---- */

void allocator_start(void) { add((Rect){{0, 0}, {PAGE, PAGE}}); }

int allocator_place(unsigned w, unsigned h, Place *at) {
    int best = best_section((unsigned[]){w, h});
    if (best < 0) return 0;
    Rect of = sections[best];
    Rect box = {{of.from[0], of.from[1]}, {of.from[0] + w, of.from[1] + h}};
    take_out(best);
    cut_rest(&of, &box);
    *at = (Place){box.from[0], box.from[1], w, h, NULL};
    return 1;
}

void allocator_release(const Place *place) {
    add((Rect){{place->x, place->y}, {place->x + place->w, place->y + place->h}});
}

int allocator_mend(const Place *stand, int count) {
    (void)stand, (void)count;
    return 0;
}

void allocator_tidy(const Place *stand, int count) {
    if (!recut(stand, count)) abort();
}

int allocator_parts(void) { return section_count; }

unsigned long long allocator_work(void) { return looked_at; }
