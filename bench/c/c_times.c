/* Times of the call for C, in process, and beside it of stb_rect_pack, whose header is that of Debian's libstb-dev: another rule,
   a skyline in two dimensions without groups, so its placements are other ones.

   cc -O3 -Ibuild c_times.c build/librectangle_pack.a -lm

   For each count of boxes, 4 to 64 a side, a line: the count, and the best of seven calls, in seconds. */
#include <stdio.h>
#include <stdlib.h>
#include <time.h>

#include "rectangle_pack.h"

#define STB_RECT_PACK_IMPLEMENTATION
#include <stb/stb_rect_pack.h>

enum { RUNS = 7, LEAST = 4, MOST = 64 };

/* Numbers that look drawn: xorshift. */
static uint32_t state = 2463534242u;

static uint32_t side(void)
{
    state ^= state << 13;
    state ^= state >> 17;
    state ^= state << 5;
    return LEAST + state % (MOST - LEAST + 1);
}

static double seconds(void)
{
    struct timespec now;
    clock_gettime(CLOCK_MONOTONIC, &now);
    return (double)now.tv_sec + (double)now.tv_nsec / 1e9;
}

static void *given(size_t count, size_t size)
{
    void *memory = calloc(count, size);
    if (memory == NULL)
        exit(3);
    return memory;
}

/* The time of one call, or a negative number where not all boxes were placed. */
static double call(uint32_t sheet, const rp_box *boxes, size_t count)
{
    rp_bin bin = {sheet, sheet, 1};
    rp_placement *placements = given(count, sizeof *placements);
    double start = seconds();
    uint32_t status = rectangle_pack_boxes(&bin, 1, boxes, count, placements, count);
    double took = seconds() - start;
    free(placements);
    return status == RP_DONE ? took : -1;
}

static double stb(uint32_t sheet, const rp_box *boxes, size_t count)
{
    stbrp_rect *rects = given(count, sizeof *rects);
    stbrp_node *nodes = given(sheet, sizeof *nodes);
    for (size_t i = 0; i < count; i++) {
        rects[i].w = (stbrp_coord)boxes[i].width;
        rects[i].h = (stbrp_coord)boxes[i].height;
    }
    stbrp_context context;
    double start = seconds();
    stbrp_init_target(&context, (int)sheet, (int)sheet, nodes, (int)sheet);
    int all = stbrp_pack_rects(&context, rects, (int)count);
    double took = seconds() - start;
    free(nodes);
    free(rects);
    return all ? took : -1;
}

static double best(double (*run)(uint32_t, const rp_box *, size_t), uint32_t sheet, const rp_box *boxes, size_t count)
{
    double least = -1;
    for (int i = 0; i < RUNS; i++) {
        double took = run(sheet, boxes, count);
        if (took < 0)
            return -1;
        if (least < 0 || took < least)
            least = took;
    }
    return least;
}

int main(void)
{
    static const size_t counts[] = {1000, 4000, 16000, 32000, 64000, 128000, 256000};
    for (size_t k = 0; k < sizeof counts / sizeof *counts; k++) {
        size_t count = counts[k];
        uint32_t sheet = count > 128000 ? 32768 : count > 64000 ? 24576 : count > 32000 ? 16384 : 8192;
        rp_box *boxes = given(count, sizeof *boxes);
        for (size_t i = 0; i < count; i++) {
            boxes[i].width = side();
            boxes[i].height = side();
            boxes[i].depth = 1;
        }
        printf("%zu %.4f %.4f\n", count, best(call, sheet, boxes, count), best(stb, sheet, boxes, count));
        free(boxes);
    }
    return 0;
}
