/* A page whose boxes come and go, for hours: how full it is when a box finds no room.

   cc -std=c11 -O2 workload.c model.c -o model && ./model [BOXES [LOAD [SEED]]]
   cc -std=c11 -O2 workload.c shelves.c -o shelves && ./shelves [BOXES [LOAD [SEED]]]

   LOAD: 0 sides of 8 to 40, uniform; 1 glyphs of a font (widths 4 to 24, seven heights of 10 to 24); 2 sprites (sides 8, 16, 32,
   64). Where a box finds no room the allocator may mend the page and try once more; where that does not help the oldest tenth
   of the boxes goes. How full the page is is taken then, before they go. The page is tidied after that; and, while it fills for
   the first time, from FIRST_TIDY boxes on, each time there are half as many again. */
#define _POSIX_C_SOURCE 199309L
#include "workload.h"
#include <stdio.h>
#include <stdlib.h>
#include <string.h>
#include <time.h>

enum { WINDOWS = 10, MOST_STANDING = 1 << 18, FIRST_TIDY = 100 };

static unsigned long long state = 12345;

static unsigned draw(unsigned low, unsigned high) {
    state = state * 6364136223846793005ULL + 1442695040888963407ULL;
    return low + (unsigned)((state >> 33) % (high - low + 1));
}

static void draw_box(int load, unsigned *w, unsigned *h) {
    static const unsigned heights[] = {10, 12, 14, 16, 18, 20, 24};
    if (load == 0) *w = draw(8, 40), *h = draw(8, 40);
    else if (load == 1) *w = draw(4, 24), *h = heights[draw(0, 6)];
    else *w = 8u << draw(0, 3), *h = 8u << draw(0, 3);
}

/* ---- how full, by windows of the run ---- */

typedef struct {
    double sum, worst;
    int refusals;
} Fullness;

static void note(Fullness *of, double full) {
    if (!of->refusals || full < of->worst) of->worst = full;
    of->sum += full, of->refusals++;
}

static double mean(const Fullness *of) { return of->refusals ? of->sum / of->refusals : 0; }

/* ---- the boxes that stand, oldest first: a row that is moved to the front when its end is reached ---- */

static Place row[MOST_STANDING];
static int first, end;
static double area_standing;

static void stand(Place place) {
    if (end == MOST_STANDING) {
        memmove(row, row + first, sizeof *row * (size_t)(end - first));
        end -= first, first = 0;
    }
    row[end++] = place, area_standing += (double)place.w * place.h;
}

static void go(int boxes) {
    for (; boxes > 0 && first < end; boxes--, first++) {
        allocator_release(&row[first]);
        area_standing -= (double)row[first].w * row[first].h;
    }
}

/* ---- the worst time of one call ---- */

static double worst_place, worst_mend;

static double now(void) {
    struct timespec t;
    clock_gettime(CLOCK_PROCESS_CPUTIME_ID, &t);
    return (double)t.tv_sec + (double)t.tv_nsec * 1e-9;
}

static void worse(double *worst, double began) {
    double took = now() - began;
    if (took > *worst) *worst = took;
}

static int place_one(unsigned w, unsigned h) {
    Place at;
    double began = now();
    int stands = allocator_place(w, h, &at);
    worse(&worst_place, began);
    if (stands) stand(at);
    return stands;
}

static int mend(void) {
    double began = now();
    int again = allocator_mend(row + first, end - first);
    worse(&worst_mend, began);
    return again;
}

static void tidy(void) {
    double began = now();
    allocator_tidy(row + first, end - first);
    worse(&worst_mend, began);
}

/* ---- the run ---- */

static Fullness whole, windows[WINDOWS];

/* While the page fills for the first time. */
static int tidied_as_it_fills(int tidy_at) {
    if (end - first < tidy_at) return tidy_at;
    tidy();
    return (end - first) * 3 / 2;
}

static void run(int boxes, int load) {
    int tidy_at = FIRST_TIDY;
    for (int made = 0; made < boxes; made++) {
        unsigned w, h;
        draw_box(load, &w, &h);
        while (!place_one(w, h) && !(mend() && place_one(w, h))) {
            double full = area_standing / ((double)PAGE * PAGE);
            note(&whole, full), note(&windows[(long long)made * WINDOWS / boxes], full);
            go((end - first) / 10 + 1);
            tidy();
        }
        if (!whole.refusals) tidy_at = tidied_as_it_fills(tidy_at);
    }
}

static void report(int boxes, double took) {
    printf("%s: %d boxes, %d refusals, full %.3f in the mean, %.3f at the worst\n", allocator_name, boxes, whole.refusals,
           mean(&whole), whole.worst);
    printf("  by tenths:");
    for (int i = 0; i < WINDOWS; i++) printf(" %.3f/%.3f", mean(&windows[i]), windows[i].worst);
    printf("\n  %d parts; %.1f looked at a box; %.3f M boxes/s; worst call: place %.3f ms, mend %.3f ms\n", allocator_parts(),
           (double)allocator_work() / boxes, boxes / took / 1e6, worst_place * 1e3, worst_mend * 1e3);
}

int main(int argc, char **argv) {
    int boxes = argc > 1 ? atoi(argv[1]) : 1000000, load = argc > 2 ? atoi(argv[2]) : 0;
    if (argc > 3) state = strtoull(argv[3], NULL, 10);
    allocator_start();
    double began = now();
    run(boxes, load);
    report(boxes, now() - began);
    go(end - first);
    tidy();
    printf("  emptied: %d parts; ", allocator_parts());
    printf("a box of the whole page: %s\n", place_one(PAGE, PAGE) ? "taken" : "REFUSED");
    return 0;
}
