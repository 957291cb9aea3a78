/* Times of the judge for C, and of sessions made of saved parts, in process.

   cc -O3 -Ibuild check_times.c build/librectangle_pack.a

   For each layout of boxes a line: its name, how many boxes it has, and the best of seven calls of rectangle_pack_check and of
   rectangle_pack_session_restore, in seconds; no time of the latter where the boxes leave cells that are in no free section. */
#include <stdio.h>
#include <stdlib.h>
#include <time.h>

#include "rectangle_pack.h"

enum { RUNS = 7 };

/* Boxes that stand in a bin, and what is free there. */
typedef struct layout {
    rp_bin bin;
    size_t count, free_count;
    rp_section *boxes, *free;
    int fills;
} layout;

/* Numbers that look drawn: xorshift. */
static uint32_t state = 2463534242u;

static uint32_t drawn(uint32_t below)
{
    state ^= state << 13;
    state ^= state >> 17;
    state ^= state << 5;
    return state % below;
}

static uint32_t side(uint32_t least, uint32_t most)
{
    return least + drawn(most - least + 1);
}

static double seconds(void)
{
    struct timespec now;
    clock_gettime(CLOCK_MONOTONIC, &now);
    return (double)now.tv_sec + (double)now.tv_nsec / 1e9;
}

static void *given(size_t count, size_t size)
{
    void *memory = calloc(count + 1, size);
    if (memory == NULL)
        exit(3);
    return memory;
}

static void must(int holds, const char *what)
{
    if (holds)
        return;
    fprintf(stderr, "check_times: %s\n", what);
    exit(1);
}

/* Boxes 1 x 1 x 1 that fill a bin. */
static layout grid(uint32_t width, uint32_t height, uint32_t depth)
{
    layout found = {{width, height, depth}, (size_t)width * height * depth, 0, NULL, NULL, 1};
    found.boxes = given(found.count, sizeof *found.boxes);
    for (size_t i = 0; i < found.count; i++) {
        size_t row = i / width;
        found.boxes[i] = (rp_section){(uint32_t)(i % width), (uint32_t)(row % height), (uint32_t)(row / height), 1, 1, 1};
    }
    return found;
}

/* Such boxes on the floor of a deep bin. */
static layout plane(uint32_t width, uint32_t height, uint32_t depth)
{
    layout found = grid(width, height, 1);
    found.bin.depth = depth;
    found.fills = 0;
    return found;
}

/* Boxes that stand corner to corner, on a diagonal of a bin. */
static layout diagonal(uint32_t count, uint32_t depth)
{
    layout found = {{count, count, depth}, count, 0, given(count, sizeof(rp_section)), NULL, 0};
    for (uint32_t i = 0; i < count; i++)
        found.boxes[i] = (rp_section){i, i, depth > 1 ? i : 0, 1, 1, 1};
    return found;
}

/* Plates over one another, each as wide and as high as the bin. */
static layout plates(uint32_t count)
{
    layout found = {{100, 100, count}, count, 0, given(count, sizeof(rp_section)), NULL, 1};
    for (uint32_t i = 0; i < count; i++)
        found.boxes[i] = (rp_section){0, 0, i, 100, 100, 1};
    return found;
}

/* Boxes of drawn sizes, where a session packs them. */
static layout packed(uint32_t count, rp_bin bin, uint32_t least, uint32_t most)
{
    layout found = {bin, count, 0, given(count, sizeof(rp_section)), NULL, 1};
    rp_box *boxes = given(count, sizeof *boxes);
    for (uint32_t i = 0; i < count; i++)
        boxes[i] = (rp_box){side(least, most), side(least, most), bin.depth > 1 ? side(least, most) : 1, 0};
    rp_session session = RP_NO_SESSION;
    rp_outstanding *places = given(count, sizeof *places);
    must(rectangle_pack_session_new(&session) == RP_DONE, "no session");
    must(rectangle_pack_session_add_bin(&session, 0, bin.width, bin.height, bin.depth) == RP_DONE, "no bin");
    must(rectangle_pack_session_pack(&session, boxes, count, places, count) == RP_DONE, "no place");
    free(places);
    rectangle_pack_session_free_sections(&session, 0, NULL, 0, &found.free_count);
    found.free = given(found.free_count, sizeof *found.free);
    must(rectangle_pack_session_free_sections(&session, 0, found.free, found.free_count, &found.free_count) == RP_DONE, "no list");
    rp_standing *standing = given(count, sizeof *standing);
    size_t standing_count;
    must(rectangle_pack_session_outstanding(&session, standing, count, &standing_count) == RP_DONE, "no placements");
    for (uint32_t i = 0; i < count; i++)
        found.boxes[i] = standing[i].section;
    free(standing);
    free(boxes);
    rectangle_pack_session_free(&session);
    return found;
}

/* The boxes in another order, a drawn one. */
static layout shuffled(layout it)
{
    for (size_t i = it.count; i > 1; i--) {
        size_t j = drawn((uint32_t)i);
        rp_section other = it.boxes[i - 1];
        it.boxes[i - 1] = it.boxes[j];
        it.boxes[j] = other;
    }
    return it;
}

/* The time of one call of the judge, which finds nothing wrong. */
static double judged(const layout *it)
{
    rp_entry *entries = given(it->count, sizeof *entries);
    rp_claim *claims = given(it->count, sizeof *claims);
    for (size_t i = 0; i < it->count; i++) {
        const rp_section *box = &it->boxes[i];
        entries[i].rect = (rp_box){box->width, box->height, box->depth, 0};
        claims[i] = (rp_claim){(uint32_t)i, 0, *box};
    }
    rp_fault fault;
    double start = seconds();
    uint32_t status = rectangle_pack_check(&it->bin, 1, entries, it->count, NULL, 0, claims, it->count, &fault);
    double took = seconds() - start;
    must(status == RP_DONE && fault.kind == RP_NO_FAULT, "a packing is refused");
    free(entries);
    free(claims);
    return took;
}

/* The time that a session takes to be made of its parts. */
static double restored(const layout *it)
{
    rp_standing *placements = given(it->count, sizeof *placements);
    for (size_t i = 0; i < it->count; i++)
        placements[i] = (rp_standing){i, (uint32_t)i, 0, it->boxes[i]};
    rp_saved_bin bin = {0, it->bin, 0, (uint32_t)it->free_count};
    rp_saved saved = {&bin, 1, it->free, it->free_count, placements, it->count, it->count};
    rp_session session = RP_NO_SESSION;
    rp_wrong wrong;
    double start = seconds();
    uint32_t status = rectangle_pack_session_restore(&session, &saved, &wrong);
    double took = seconds() - start;
    must(status == RP_DONE, "a session is refused");
    rectangle_pack_session_free(&session);
    free(placements);
    return took;
}

static double best(double (*run)(const layout *), const layout *it)
{
    double least = run(it);
    for (int i = 1; i < RUNS; i++) {
        double took = run(it);
        if (took < least)
            least = took;
    }
    return least;
}

static void print(const char *name, layout it)
{
    printf("%s|%zu|%.4f|", name, it.count, best(judged, &it));
    if (it.fills)
        printf("%.4f\n", best(restored, &it));
    else
        printf("-\n");
    fflush(stdout);
    free(it.boxes);
    free(it.free);
}

int main(void)
{
    print("a row", grid(100000, 1, 1));
    print("a column", grid(1, 100000, 1));
    print("a grid of 400 x 250", grid(400, 250, 1));
    print("the same, in a drawn order", shuffled(grid(400, 250, 1)));
    print("a diagonal", diagonal(100000, 1));
    print("boxes 4 to 64 a side, as a session packs them", packed(100000, (rp_bin){20480, 20480, 1}, 4, 64));
    print("in 3D: a row upwards", grid(1, 1, 100000));
    print("in 3D: 50 x 50 x 40", grid(50, 50, 40));
    print("in 3D: the same, in a drawn order", shuffled(grid(50, 50, 40)));
    print("in 3D: 400 x 250 on one plane", shuffled(plane(400, 250, 1000)));
    print("in 3D: a diagonal", diagonal(100000, 100000));
    print("in 3D: plates over one another", shuffled(plates(100000)));
    print("in 3D: boxes 4 to 64 a side, as a session packs them", packed(100000, (rp_bin){2048, 2048, 2048}, 4, 64));
    return 0;
}
