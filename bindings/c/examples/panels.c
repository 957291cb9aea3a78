/* Cuts 20 equal shelves from few sheets, by a search in pieces that shows how far it is: first as they stand, then turned too.

   cc -Ibuild bindings/c/examples/panels.c build/librectangle_pack.a -o panels && ./panels */
#include <stdio.h>
#include <stdlib.h>

#include "rectangle_pack.h"

enum { SHEETS = 20, SHELVES = 20, TRIES = 20000 };

/* In tenths of a millimetre. A saw takes 3.2 mm: each shelf is larger by that, and so is what the trim of 10 mm leaves of a sheet. */
enum { SAW = 32, WIDTH = 28000 - 2 * 100 + SAW, HEIGHT = 20700 - 2 * 100 + SAW };

static void must_be_done(uint32_t status, const char *what)
{
    if (status != RP_DONE) {
        fprintf(stderr, "%s: status %u\n", what, (unsigned)status);
        exit(1);
    }
}

/* Shelves behind the first turn_count may not be turned. */
static void cut(const rp_bin *sheets, const rp_collection *shelves, const uint32_t *turns, size_t turn_count)
{
    rp_search_options options = RP_SEARCH_OPTIONS(TRIES);
    rp_search search = RP_NO_SEARCH;
    rp_progress now;
    rp_location places[SHELVES];
    rp_searched found;
    options.turns = turns;
    options.turn_count = turn_count;
    must_be_done(rectangle_pack_search_begin(sheets, SHEETS, shelves, &options, &search), "begin");
    do {
        must_be_done(rectangle_pack_search_run(&search, 1000, &now), "run");
        fprintf(stderr, "\r%llu tries, %u sheets ", (unsigned long long)now.tries, (unsigned)now.bins);
    } while (!now.is_over && now.tries < TRIES);
    fprintf(stderr, "\n");
    must_be_done(rectangle_pack_found(sheets, SHEETS, shelves, &options, &search, places, SHELVES, &found), "found");
    printf("%s: %u sheets%s\n", turn_count > 0 ? "turned" : "as they stand", (unsigned)found.used,
           found.is_optimal ? ", and no packer needs fewer" : "");
}

int main(void)
{
    rp_bin sheets[SHEETS];
    rp_box shelves[SHELVES];
    uint32_t turns[SHELVES];
    const rp_collection all = RP_COLLECTION(shelves, SHELVES);
    for (int i = 0; i < SHEETS; i++)
        sheets[i] = (rp_bin){WIDTH, HEIGHT, 1};
    for (int i = 0; i < SHELVES; i++) {
        shelves[i] = (rp_box){8000 + SAW, 6000 + SAW, 1, 0};
        turns[i] = 4;
    }
    cut(sheets, &all, turns, 0);
    cut(sheets, &all, turns, SHELVES);
    return 0;
}
