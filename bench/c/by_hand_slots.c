/* One packing of single boxes by the rule of by_hand.c, over sections that are never moved, to measure packrun against:
   cc -O3 -march=x86-64-v2 by_hand_slots.c

Reads the lines that by_hand.c reads, and prints what it prints. There each section is tested, from the newest on, and all behind
the one that is taken move up. Here a section stands in a slot, and taking it leaves the slot empty. Each whole block of 8 slots,
and each whole row of 8 blocks, has a summary. A search that stands at the end of a row or a block steps over it, where the
summary says that nothing there holds the size. */
#include "by_hand.h"
#include "by_hand_cuts.h"

/* A section, or none where it was taken. */
struct slot {
    struct section section;
    uint32_t is_free;
};

/* How many sections there are, and the greatest of their sides, middle sides and volumes. */
struct summary {
    uint32_t count, size[3], middle;
    Volume volume;
};

enum { SLOTS = 8, BLOCKS = 8 };

/* The slots of a bin, the newest last; the summaries of each whole block of so many slots, and of each whole row of so many
   blocks. */
struct sections {
    struct slot *list;
    struct summary *blocks, *rows;
    size_t count, room, block_room, row_room;
};

static uint32_t lesser(uint32_t a, uint32_t b)
{
    return a < b ? a : b;
}

static uint32_t greater(uint32_t a, uint32_t b)
{
    return a > b ? a : b;
}

/* The side that is neither the shortest nor the longest. */
static uint32_t middle(const uint32_t size[3])
{
    uint32_t low = lesser(size[0], size[1]), high = greater(size[0], size[1]);
    return greater(low, lesser(high, size[2]));
}

/* The summary of one section of this size. */
static struct summary alone(const uint32_t size[3])
{
    return (struct summary){1, {size[0], size[1], size[2]}, middle(size), volume(size)};
}

static void add(struct summary *sum, struct summary more)
{
    sum->count += more.count;
    for (int axis = 0; axis < 3; axis++)
        sum->size[axis] = greater(sum->size[axis], more.size[axis]);
    sum->middle = greater(sum->middle, more.middle);
    if (sum->volume < more.volume)
        sum->volume = more.volume;
}

static struct summary of_block(const struct slot *slots)
{
    struct summary sum = {0};
    for (int n = 0; n < SLOTS; n++)
        if (slots[n].is_free)
            add(&sum, alone(slots[n].section.size));
    return sum;
}

static struct summary of_row(const struct summary *blocks)
{
    struct summary sum = {0};
    for (int n = 0; n < BLOCKS; n++)
        add(&sum, blocks[n]);
    return sum;
}

/* Whether one of the sections may hold the size, taken as a section. One that does has sides, a middle side and a volume that are
   no smaller. */
static int may_hold(const struct summary *sum, const struct summary *size)
{
    return (size->count <= sum->count) & (size->size[0] <= sum->size[0]) & (size->size[1] <= sum->size[1]) &
           (size->size[2] <= sum->size[2]) & (size->middle <= sum->middle) & (size->volume <= sum->volume);
}

static int holds(const struct slot *slot, const uint32_t size[3])
{
    const uint32_t *room = slot->section.size;
    return (slot->is_free != 0) & (size[0] <= room[0]) & (size[1] <= room[1]) & (size[2] <= room[2]);
}

/* The index of the newest section that holds the size, taken as a section, or -1. */
static ptrdiff_t newest(const struct sections *slots, const struct summary *size)
{
    size_t end = slots->count;
    while (end > 0) {
        if (end % (SLOTS * BLOCKS) == 0 && !may_hold(&slots->rows[end / (SLOTS * BLOCKS) - 1], size))
            end -= SLOTS * BLOCKS;
        else if (end % SLOTS == 0 && !may_hold(&slots->blocks[end / SLOTS - 1], size))
            end -= SLOTS;
        else
            do {
                if (holds(&slots->list[--end], size->size))
                    return (ptrdiff_t)end;
            } while (end % SLOTS > 0);
    }
    return -1;
}

/* Puts a section into a new slot at the end. Where that makes a block or a row whole, it gets its summary. */
static void push(struct sections *slots, struct section section)
{
    slots->list = grown(slots->list, slots->count, &slots->room, sizeof *slots->list);
    slots->list[slots->count++] = (struct slot){section, 1};
    if (slots->count % SLOTS > 0)
        return;
    size_t block = slots->count / SLOTS - 1;
    slots->blocks = grown(slots->blocks, block, &slots->block_room, sizeof *slots->blocks);
    slots->blocks[block] = of_block(&slots->list[block * SLOTS]);
    if ((block + 1) % BLOCKS > 0)
        return;
    size_t row = block / BLOCKS;
    slots->rows = grown(slots->rows, row, &slots->row_room, sizeof *slots->rows);
    slots->rows[row] = of_row(&slots->blocks[row * BLOCKS]);
}

/* Empties a slot. Where its block or its row is whole, the summary is made anew. */
static void empty(struct sections *slots, size_t index)
{
    slots->list[index].is_free = 0;
    size_t block = index / SLOTS, row = block / BLOCKS;
    if (block < slots->count / SLOTS)
        slots->blocks[block] = of_block(&slots->list[block * SLOTS]);
    if (row < slots->count / (SLOTS * BLOCKS))
        slots->rows[row] = of_row(&slots->blocks[row * BLOCKS]);
}

struct sought {
    struct summary section;
};

static struct sought sought_of(const uint32_t size[3])
{
    return (struct sought){alone(size)};
}

static int place(struct sections *slots, const struct sought *sought, uint32_t at[3])
{
    ptrdiff_t index = newest(slots, &sought->section);
    if (index < 0)
        return 0;
    struct section taken = slots->list[index].section, pieces[3];
    int pushed = best_cut(taken, sought->section.size, pieces);
    memcpy(at, taken.at, sizeof taken.at);
    empty(slots, (size_t)index);
    for (int n = 0; n < pushed; n++)
        push(slots, pieces[n]);
    return 1;
}

#include "by_hand_rule.h"
