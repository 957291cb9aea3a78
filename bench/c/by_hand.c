/* One packing of single boxes by a loop written by hand, to measure packrun against: cc -O3 -march=x86-64-v2 by_hand.c

Reads lines `bin NAME W H D`, `rect ID W H D` and, as the last one, `pack`; prints what packrun prints. */
#include "by_hand.h"
#include "by_hand_cuts.h"

struct sections {
    struct section *list;
    size_t count, room;
};

struct sought {
    const uint32_t *size;
};

static struct sought sought_of(const uint32_t size[3])
{
    return (struct sought){size};
}

static void push(struct sections *sections, struct section section)
{
    sections->list = grown(sections->list, sections->count, &sections->room, sizeof section);
    sections->list[sections->count++] = section;
}

/* The index of the newest section that holds the size, or -1. */
static ptrdiff_t newest(const struct section *list, size_t count, const uint32_t size[3])
{
    uint32_t width = size[0], height = size[1], depth = size[2];
    for (ptrdiff_t n = (ptrdiff_t)count - 1; n >= 0; n--) {
        const uint32_t *room = list[n].size;
        if ((width <= room[0]) & (height <= room[1]) & (depth <= room[2]))
            return n;
    }
    return -1;
}

static int place(struct sections *free, const struct sought *sought, uint32_t at[3])
{
    ptrdiff_t index = newest(free->list, free->count, sought->size);
    if (index < 0)
        return 0;
    struct section *taken = &free->list[index];
    struct section pieces[3];
    int pushed = best_cut(*taken, sought->size, pieces);
    memcpy(at, taken->at, sizeof taken->at);
    free->count--;
    memmove(taken, taken + 1, (free->count - (size_t)index) * sizeof *taken);
    for (int n = 0; n < pushed; n++)
        push(free, pieces[n]);
    return 1;
}

#include "by_hand_rule.h"
