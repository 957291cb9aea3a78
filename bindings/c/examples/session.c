/* An atlas that is filled while a program runs: sprites come to one sheet and go from it.

   cc -Ibuild bindings/c/examples/session.c build/librectangle_pack.a -o session && ./session */
#include <stdio.h>
#include <stdlib.h>

#include "rectangle_pack.h"

enum { SHEET = 7, SPRITES = 3, SHOE = 2 };

static void must_be_done(uint32_t status, const char *what)
{
    if (status != RP_DONE) {
        fprintf(stderr, "%s: status %u\n", what, (unsigned)status);
        exit(1);
    }
}

static void print_place(const char *name, const rp_outstanding *it)
{
    printf("%s is placement %llu, on sheet %u at %u %u\n", name, (unsigned long long)it->number,
           (unsigned)it->placement.bin, (unsigned)it->placement.x, (unsigned)it->placement.y);
}

/* The sheet is small, so each volume is in the low part. */
static void print_stats(rp_session *session)
{
    rp_stats stats;
    must_be_done(rectangle_pack_session_stats(session, SHEET, &stats), "stats");
    printf("%llu cells: %llu free (sections: %llu), %llu placed (placements: %llu)\n",
           (unsigned long long)stats.bin_volume.low, (unsigned long long)stats.free_volume.low,
           (unsigned long long)stats.free_sections, (unsigned long long)stats.placed_volume.low,
           (unsigned long long)stats.placements);
}

int main(void)
{
    static const char *const names[SPRITES] = {"map", "hat", "shoe"};
    /* The hat and the shoe are drawn together, so they are to be on one sheet. */
    const rp_box sprites[SPRITES] = {{64, 40, 1, 0}, {10, 24, 1, 1}, {20, 24, 1, 1}};
    const rp_box banner = {50, 20, 1, 0};
    rp_outstanding places[SPRITES], banner_place;
    rp_session session = RP_NO_SESSION;

    must_be_done(rectangle_pack_session_new(&session), "new");
    must_be_done(rectangle_pack_session_add_bin(&session, SHEET, 64, 64, 1), "add_bin");
    must_be_done(rectangle_pack_session_pack(&session, sprites, SPRITES, places, SPRITES), "pack");
    for (int i = 0; i < SPRITES; i++)
        print_place(names[i], &places[i]);
    print_stats(&session);

    must_be_done(rectangle_pack_session_release(&session, places[SHOE].number), "release");
    printf("the shoe is released\n");
    print_stats(&session);

    /* What the shoe leaves and what was free beside it become one section. The banner needs both. */
    must_be_done(rectangle_pack_session_coalesce_all(&session, SHEET), "coalesce_all");
    must_be_done(rectangle_pack_session_pack(&session, &banner, 1, &banner_place, 1), "pack");
    print_place("banner", &banner_place);
    print_stats(&session);

    rectangle_pack_session_free(&session);
    return 0;
}
