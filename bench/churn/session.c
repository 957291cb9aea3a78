/* The page as a bin of a session of the library for C. WAY says how it is kept:
   0 boxes are packed, and free sections are joined where one finds no room;
   1 boxes are packed, and the page is cut anew when it is to be tidied;
   2 each box goes where it fits best, and the page is cut anew when it is to be tidied. */
#include "rectangle_pack.h"
#include "workload.h"
#include <stdint.h>
#include <stdlib.h>

#ifndef WAY
#define WAY 2
#endif

static rp_session session = RP_NO_SESSION;

#if WAY == 0
const char *const allocator_name = "packed, joined at a refusal";
#elif WAY == 1
const char *const allocator_name = "packed, cut anew";
#else
const char *const allocator_name = "best fit, cut anew";
#endif

static void must(uint32_t status) {
    if (status != RP_DONE) abort();
}

void allocator_start(void) {
    must(rectangle_pack_session_new(&session));
    must(rectangle_pack_session_add_bin(&session, 0, PAGE, PAGE, 1));
}

int allocator_place(unsigned w, unsigned h, Place *at) {
    rp_box box = {w, h, 1, 0};
    rp_outstanding stands;
    uint32_t status = WAY == 2 ? rectangle_pack_session_place_best(&session, 0, &box, RP_VOLUME, &stands)
                               : rectangle_pack_session_pack(&session, &box, 1, &stands, 1);
    if (status == RP_NOT_ENOUGH_SPACE) return 0;
    must(status);
    *at = (Place){stands.placement.x, stands.placement.y, w, h, (void *)(uintptr_t)stands.number};
    return 1;
}

void allocator_release(const Place *place) { must(rectangle_pack_session_release(&session, (uintptr_t)place->record)); }

int allocator_mend(const Place *stand, int count) {
    (void)stand, (void)count;
    if (WAY == 0) must(rectangle_pack_session_coalesce_all(&session, 0));
    return WAY == 0;
}

void allocator_tidy(const Place *stand, int count) {
    (void)stand, (void)count;
    if (WAY != 0) must(rectangle_pack_session_recut(&session, 0));
}

int allocator_parts(void) {
    rp_stats stats;
    must(rectangle_pack_session_stats(&session, 0, &stats));
    return (int)stats.free_sections;
}

unsigned long long allocator_work(void) { return 0; }
