/* Packs a few sprites into two sheets and prints where they stand.

   cc -Ibuild bindings/c/examples/atlas.c build/librectangle_pack.a -o atlas && ./atlas */
#include <stdio.h>

#include "rectangle_pack.h"

enum { SHEETS = 2, SPRITES = 5 };

int main(void)
{
    static const char *const names[SPRITES] = {"hat", "shoe", "tree", "sun", "moon"};
    const rp_bin sheets[SHEETS] = {{64, 64, 1}, {128, 128, 1}};
    /* The hat and the shoe are drawn together, so they are to be on one sheet. */
    const rp_box sprites[SPRITES] = {{10, 20, 1, 1}, {5, 50, 1, 1}, {60, 60, 1, 0}, {32, 32, 1, 0}, {16, 16, 1, 0}};
    rp_placement placements[SPRITES];
    uint32_t status = rectangle_pack_boxes(sheets, SHEETS, sprites, SPRITES, placements, SPRITES);
    if (status != RP_DONE) {
        fprintf(stderr, "not packed: %u\n", (unsigned)status);
        return 1;
    }
    for (int i = 0; i < SPRITES; i++) {
        printf("%s on sheet %u at %u %u\n", names[i], (unsigned)placements[i].bin, (unsigned)placements[i].x,
               (unsigned)placements[i].y);
    }
    return 0;
}
