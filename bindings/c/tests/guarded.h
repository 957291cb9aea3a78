/* Lists with nothing behind them: each ends where a page begins that nobody may touch, so that a call that reads or writes past
   the end of a list is stopped at once. To be included once in a program, on a system with mmap. */
#ifndef GUARDED_H
#define GUARDED_H

#include <fcntl.h>
#include <string.h>
#include <sys/mman.h>
#include <unistd.h>

#include "refusing.h"

/* The lists of a call, each of which has pages of its own, and how many bytes it may have. */
enum list {
    BINS_LIST, BOXES_LIST, MEMBERS_LIST, EXCLUSIONS_LIST, COLLECTION, PLACEMENTS_LIST, CHOSEN, NUMBERS_LIST, STEPS_LIST, COUNT, WRONG,
    TURNS_LIST, COSTS_LIST, OPTIONS, LISTS
};

enum { LIST_ROOM = 1 << 14 };

/* Memory of the system, as many bytes as that, which nobody may touch. */
static unsigned char *forbidden(size_t size)
{
    int zeros = open("/dev/zero", O_RDWR);
    void *at = zeros < 0 ? MAP_FAILED : mmap(NULL, size, PROT_NONE, MAP_PRIVATE, zeros, 0);
    check(at != MAP_FAILED, "there is no memory for lists");
    close(zeros);
    return at;
}

/* Where a list of this many bytes begins, so that it ends before a page that nobody may touch. An empty one is that page. */
static void *guarded(enum list list, size_t size)
{
    static unsigned char *ends[LISTS];
    if (!ends[list]) {
        size_t page = (size_t)sysconf(_SC_PAGESIZE), room = (LIST_ROOM + page - 1) / page * page;
        unsigned char *start = forbidden(room + page);
        check(!mprotect(start, room, PROT_READ | PROT_WRITE), "memory for lists cannot be written");
        ends[list] = start + room;
    }
    check(size <= LIST_ROOM, "a list is too long to be guarded");
    return ends[list] - size;
}

static void *guarded_copy(enum list list, const void *from, size_t size)
{
    return memcpy(guarded(list, size), from, size);
}

/* A place that is filled, to see whether something was written. */
static void *guarded_untouched(enum list list, size_t size)
{
    return memset(guarded(list, size), UNTOUCHED, size);
}

#endif
