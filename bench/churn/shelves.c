/* A shelf allocator by hand, in the manner of glyph caches: shelves over the whole width, heights in steps of eight, a box goes to
   the first free run of the lowest shelf that is at most half as high again; whole free shelves that touch become one. */
#include "workload.h"
#include <stdlib.h>

enum { STEP = 8 };

typedef struct Run Run;
typedef struct Shelf Shelf;
struct Run {
    unsigned x, w;
    int is_taken;
    Run *before, *after;
    Shelf *shelf;
};
struct Shelf {
    unsigned y, h;
    Run *first;
    Shelf *below, *above;
};

const char *const allocator_name = "shelves";
static Shelf *lowest;
static int free_parts;
static unsigned long long looked_at;

static void *fresh(size_t size) {
    void *memory = calloc(1, size);
    if (!memory) abort();
    return memory;
}

static Run *new_run(Shelf *shelf, unsigned x, unsigned w) {
    Run *run = fresh(sizeof *run);
    run->x = x, run->w = w, run->shelf = shelf;
    free_parts++;
    return run;
}

static Shelf *new_shelf(unsigned y, unsigned h) {
    Shelf *shelf = fresh(sizeof *shelf);
    shelf->y = y, shelf->h = h, shelf->first = new_run(shelf, 0, PAGE);
    return shelf;
}

static int is_free(const Shelf *shelf) { return !shelf->first->is_taken && !shelf->first->after; }

static Run *first_free(const Shelf *shelf, unsigned w) {
    for (Run *run = shelf->first; run; run = run->after) {
        looked_at++;
        if (!run->is_taken && run->w >= w) return run;
    }
    return NULL;
}

/* The run for a box: on the lowest shelf that has room; one that is free may be of any height. */
static Run *best_run(unsigned w, unsigned h) {
    Run *best = NULL;
    for (Shelf *shelf = lowest; shelf; shelf = shelf->above) {
        if (shelf->h < h || (shelf->h > h * 3 / 2 && !is_free(shelf))) continue;
        if (best && shelf->h >= best->shelf->h) continue;
        Run *run = first_free(shelf, w);
        if (run) best = run;
    }
    return best;
}

static void cut_shelf(Shelf *shelf, unsigned h) {
    Shelf *rest = new_shelf(shelf->y + h, shelf->h - h);
    rest->below = shelf, rest->above = shelf->above;
    if (shelf->above) shelf->above->below = rest;
    shelf->above = rest, shelf->h = h;
}

static void cut_run(Run *run, unsigned w) {
    Run *rest = new_run(run->shelf, run->x + w, run->w - w);
    rest->before = run, rest->after = run->after;
    if (run->after) run->after->before = rest;
    run->after = rest, run->w = w;
}

/* Both are free and touch: the second becomes part of the first. */
static void join_runs(Run *run, Run *with) {
    run->w += with->w, run->after = with->after;
    if (with->after) with->after->before = run;
    free(with), free_parts--;
}

static void join_shelves(Shelf *shelf, Shelf *with) {
    shelf->h += with->h, shelf->above = with->above;
    if (with->above) with->above->below = shelf;
    free(with->first), free(with), free_parts--;
}

void allocator_start(void) { lowest = new_shelf(0, PAGE); }

int allocator_place(unsigned w, unsigned h, Place *at) {
    unsigned height = (h + STEP - 1) / STEP * STEP;
    Run *run = best_run(w, height);
    if (!run) return 0;
    if (is_free(run->shelf) && run->shelf->h > height) cut_shelf(run->shelf, height);
    if (run->w > w) cut_run(run, w);
    run->is_taken = 1, free_parts--;
    *at = (Place){run->x, run->shelf->y, w, h, run};
    return 1;
}

void allocator_release(const Place *place) {
    Run *run = place->record;
    run->is_taken = 0, free_parts++;
    if (run->after && !run->after->is_taken) join_runs(run, run->after);
    if (run->before && !run->before->is_taken) run = run->before, join_runs(run, run->after);
    Shelf *shelf = run->shelf;
    if (!is_free(shelf)) return;
    if (shelf->above && is_free(shelf->above)) join_shelves(shelf, shelf->above);
    if (shelf->below && is_free(shelf->below)) join_shelves(shelf->below, shelf);
}

int allocator_mend(const Place *stand, int count) {
    (void)stand, (void)count;
    return 0;
}

void allocator_tidy(const Place *stand, int count) { (void)stand, (void)count; }

int allocator_parts(void) { return free_parts; }

unsigned long long allocator_work(void) { return looked_at; }
