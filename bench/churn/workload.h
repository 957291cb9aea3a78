/* What an allocator of places on one page offers, so that the same workload drives them all. */
#ifndef WORKLOAD_H
#define WORKLOAD_H

enum { PAGE = 2048 };

typedef struct {
    unsigned x, y, w, h;
    void *record; /* of the allocator */
} Place;

extern const char *const allocator_name;

void allocator_start(void);
/* 1 where the box stands, at `at`; 0 where it finds no room. */
int allocator_place(unsigned w, unsigned h, Place *at);
void allocator_release(const Place *place);
/* To be called where a box found no room: 1 where it is worth to try again. `stand` are the boxes that stand, oldest first. */
int allocator_mend(const Place *stand, int count);
/* To be called when the oldest boxes have gone, and now and then while the page fills for the first time. */
void allocator_tidy(const Place *stand, int count);
/* How many free parts there are, and how much was looked at up to now. */
int allocator_parts(void);
unsigned long long allocator_work(void);

#endif
