/* Loads two vans by the best heuristic: paint and food may not be in one van, and the tools go with both.

   cc -Ibuild bindings/c/examples/collection.c build/librectangle_pack.a -o collection && ./collection */
#include <stdio.h>

#include "rectangle_pack.h"

enum { VANS = 2, CRATES = 4, TOOLS = 3, PLACES = CRATES + 1 };

/* The groups. */
enum { FOOD = 1, PAINT = 2 };

static const char *const heuristics[] = {"volume",   "height",       "width",         "depth",
                                         "side-sum", "longest-side", "shortest-side", "side-area"};

int main(void)
{
    static const char *const names[CRATES] = {"bread", "apples", "paint", "tools"};
    const rp_bin vans[VANS] = {{10, 10, 10}, {12, 10, 10}};
    const rp_box crates[CRATES] = {{6, 5, 5, FOOD}, {5, 5, 5, FOOD}, {4, 5, 9, PAINT}, {2, 3, 3, FOOD}};
    const rp_member more_tools = {TOOLS, PAINT};
    const rp_exclusion apart = {FOOD, PAINT};
    const rp_collection load = {crates, CRATES, &more_tools, 1, &apart, 1};
    rp_placement places[PLACES];
    uint32_t chosen, status = rectangle_pack_collection(vans, VANS, &load, RP_BEST, places, PLACES, &chosen);
    if (status != RP_DONE) {
        fprintf(stderr, "not loaded: %u\n", (unsigned)status);
        return 1;
    }
    for (int i = 0; i < PLACES; i++) {
        const rp_placement *it = &places[i];
        printf("%s in van %u at %u %u %u\n", names[i < CRATES ? i : TOOLS], (unsigned)it->bin, (unsigned)it->x,
               (unsigned)it->y, (unsigned)it->z);
    }
    printf("by %s\n", heuristics[chosen]);
    return 0;
}
