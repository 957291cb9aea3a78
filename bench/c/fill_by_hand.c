/* Other packers, to measure the library against, in two dimensions: cc -O3 -march=x86-64-v2 fill_by_hand.c -lm

Reads these lines of crates/session_lines: `box W H`, `first 0 0 S` and `pages W H`. Answers have a number for each packer: MaxRects,
shelves and stb_rect_pack, whose header is that of Debian's libstb-dev. Nothing is checked: all lines are good, each box goes onto
an empty page, and want of memory ends the run. */
#include <stddef.h>
#include <stdio.h>
#include <stdlib.h>
#include <string.h>

#define STB_RECT_PACK_IMPLEMENTATION
#include <stb/stb_rect_pack.h>

struct box {
    int width, height;
    size_t number;
};

/* What is free somewhere on a page. */
struct area {
    int x, y, width, height;
};

struct areas {
    struct area *items;
    size_t count, room;
};

/* Places the box on the page, if there is room. */
typedef int placer(struct areas *page, struct box box);
typedef int order(const void *one, const void *other);

/* The number of pages that the boxes go onto, or 0 where they do not go onto `most` of them. */
typedef size_t packer(struct box *boxes, size_t count, struct area page, size_t most);

/* The memory, where there is any. */
static void *given(void *memory)
{
    if (memory == NULL)
        exit(3);
    return memory;
}

static void push(struct areas *areas, struct area area)
{
    if (areas->count == areas->room) {
        areas->room = areas->room == 0 ? 16 : 2 * areas->room;
        areas->items = given(realloc(areas->items, areas->room * sizeof area));
    }
    areas->items[areas->count++] = area;
}

/* Pages in turn: each box goes onto the first that takes it. */
static size_t first_fit(placer *place, const struct box *boxes, size_t count, struct area page, size_t most)
{
    struct areas *pages = given(calloc(most, sizeof *pages));
    size_t used = 0, n = 0;
    for (; n < count; n++) {
        size_t at = 0;
        while (at < used && !place(&pages[at], boxes[n]))
            at++;
        if (at < used)
            continue;
        if (used == most)
            break;
        push(&pages[used], page);
        if (!place(&pages[used++], boxes[n]))
            break;
    }
    for (size_t at = 0; at < used; at++)
        free(pages[at].items);
    free(pages);
    return n < count ? 0 : used;
}

static int holds(struct area area, struct box box)
{
    return box.width <= area.width && box.height <= area.height;
}

/* ---- MaxRects: the largest free areas of a page, which may overlap. ---- */

static int is_inside(struct area inner, struct area outer)
{
    return inner.x >= outer.x && inner.y >= outer.y && inner.x + inner.width <= outer.x + outer.width &&
           inner.y + inner.height <= outer.y + outer.height;
}

static int is_apart(struct area one, struct area other)
{
    return one.x + one.width <= other.x || other.x + other.width <= one.x || one.y + one.height <= other.y ||
           other.y + other.height <= one.y;
}

/* What is left of the area on the four sides of what is taken. */
static void cut(struct areas *pieces, struct area from, struct area taken)
{
    int right = from.x + from.width, top = from.y + from.height;
    int taken_right = taken.x + taken.width, taken_top = taken.y + taken.height;
    if (taken.x > from.x)
        push(pieces, (struct area){from.x, from.y, taken.x - from.x, from.height});
    if (taken_right < right)
        push(pieces, (struct area){taken_right, from.y, right - taken_right, from.height});
    if (taken.y > from.y)
        push(pieces, (struct area){from.x, from.y, from.width, taken.y - from.y});
    if (taken_top < top)
        push(pieces, (struct area){from.x, taken_top, from.width, top - taken_top});
}

/* Whether one of the areas before the index holds this one, or one from there on does that is larger. */
static int is_covered(const struct areas *areas, size_t before, struct area area)
{
    for (size_t n = 0; n < areas->count; n++)
        if (is_inside(area, areas->items[n]) && (n < before || !is_inside(areas->items[n], area)))
            return 1;
    return 0;
}

/* Cuts what is taken out of the free areas, and leaves out pieces that are inside others. The areas that are not cut are inside no
   piece, since they are not inside the area that it is a piece of. */
static void take(struct areas *page, struct area taken)
{
    static struct areas pieces;
    size_t kept = 0;
    pieces.count = 0;
    for (size_t n = 0; n < page->count; n++) {
        if (is_apart(page->items[n], taken))
            page->items[kept++] = page->items[n];
        else
            cut(&pieces, page->items[n], taken);
    }
    page->count = kept;
    for (size_t n = 0; n < pieces.count; n++)
        if (!is_covered(&pieces, n, pieces.items[n]) && !is_covered(page, page->count, pieces.items[n]))
            push(page, pieces.items[n]);
}

/* Whether the box leaves less of the first area than of the second: on the side where it leaves less, then on the other one. */
static int is_closer(struct area one, struct area other, struct box box)
{
    int wide = one.width - box.width, high = one.height - box.height;
    int other_wide = other.width - box.width, other_high = other.height - box.height;
    int least = wide < high ? wide : high, other_least = other_wide < other_high ? other_wide : other_high;
    return least != other_least ? least < other_least : wide + high < other_wide + other_high;
}

/* Places the box at the corner of the free area that it leaves least of on a side: the best short side. */
static int place_best(struct areas *page, struct box box)
{
    const struct area *best = NULL;
    for (const struct area *next = page->items; next < page->items + page->count; next++)
        if (holds(*next, box) && (best == NULL || is_closer(*next, *best, box)))
            best = next;
    if (best == NULL)
        return 0;
    take(page, (struct area){best->x, best->y, box.width, box.height});
    return 1;
}

static int by_falling_area(const void *a, const void *b)
{
    const struct box *one = a, *other = b;
    long long area = (long long)one->width * one->height, other_area = (long long)other->width * other->height;
    if (area != other_area)
        return area > other_area ? -1 : 1;
    return one->number < other->number ? -1 : 1;
}

static size_t max_rects(struct box *boxes, size_t count, struct area page, size_t most)
{
    qsort(boxes, count, sizeof *boxes, by_falling_area);
    return first_fit(place_best, boxes, count, page, most);
}

/* ---- Shelves: what is free on each shelf of a page, from the bottom on, and at last what is free above them. ---- */

/* Places the box on the first shelf that has room, which may be a new one. */
static int place_on_shelf(struct areas *page, struct box box)
{
    size_t at = 0;
    while (at < page->count && !holds(page->items[at], box))
        at++;
    if (at == page->count)
        return 0;
    struct area *shelf = &page->items[at];
    if (at + 1 == page->count) {
        struct area above = *shelf;
        above.y += box.height;
        above.height -= box.height;
        shelf->height = box.height;
        push(page, above);
        shelf = &page->items[at];
    }
    shelf->x += box.width;
    shelf->width -= box.width;
    return 1;
}

static int by_falling_height(const void *a, const void *b)
{
    const struct box *one = a, *other = b;
    if (one->height != other->height)
        return one->height > other->height ? -1 : 1;
    if (one->width != other->width)
        return one->width > other->width ? -1 : 1;
    return one->number < other->number ? -1 : 1;
}

static size_t shelves(struct box *boxes, size_t count, struct area page, size_t most)
{
    qsort(boxes, count, sizeof *boxes, by_falling_height);
    return first_fit(place_on_shelf, boxes, count, page, most);
}

/* ---- stb_rect_pack, as it is by default: page after page, each given what the one before left. ---- */

/* Leaves the boxes that were not packed, and answers how many they are. */
static int left(stbrp_rect *rects, int count)
{
    int kept = 0;
    for (int n = 0; n < count; n++)
        if (!rects[n].was_packed)
            rects[kept++] = rects[n];
    return kept;
}

static size_t stb(struct box *boxes, size_t count, struct area page, size_t most)
{
    stbrp_rect *rects = given(malloc((count + 1) * sizeof *rects));
    /* As many nodes as the page is wide: with fewer, widths are rounded. */
    stbrp_node *nodes = given(malloc((size_t)page.width * sizeof *nodes));
    int rest = (int)count;
    size_t used = 0;
    for (size_t n = 0; n < count; n++)
        rects[boxes[n].number] = (stbrp_rect){.w = boxes[n].width, .h = boxes[n].height};
    for (; rest > 0 && used < most; used++) {
        stbrp_context context;
        stbrp_init_target(&context, page.width, page.height, nodes, page.width);
        stbrp_pack_rects(&context, rects, rest);
        rest = left(rects, rest);
    }
    free(rects);
    free(nodes);
    return rest > 0 ? 0 : used;
}

static packer *const PACKERS[] = {max_rects, shelves, stb};

/* The first side from the least one to four times that at which a square takes all boxes, or 0. */
static size_t first_side(packer *pack, struct box *boxes, size_t count, int least)
{
    for (int side = least; side <= 4 * least; side++)
        if (pack(boxes, count, (struct area){0, 0, side, side}, 1) > 0)
            return (size_t)side;
    return 0;
}

/* Answers a line that begins with a `p` as pages, any other one as squares from this side on. */
static void answer(char asked, struct box *boxes, size_t count, struct area page, int side)
{
    for (size_t n = 0; n < sizeof PACKERS / sizeof *PACKERS; n++) {
        size_t number =
            asked == 'p' ? PACKERS[n](boxes, count, page, count) : first_side(PACKERS[n], boxes, count, side);
        printf("%zu ", number);
    }
    putchar('\n');
}

int main(void)
{
    struct box *boxes = NULL;
    size_t count = 0, room = 0;
    char line[100], word[20];
    while (fgets(line, sizeof line, stdin) != NULL) {
        int width = 0, height = 0, side = 0;
        sscanf(line, "%19s %d %d %d", word, &width, &height, &side);
        if (word[0] != 'b') {
            answer(word[0], boxes, count, (struct area){0, 0, width, height}, side);
            count = 0;
            continue;
        }
        if (count == room) {
            room = room == 0 ? 16 : 2 * room;
            boxes = given(realloc(boxes, room * sizeof *boxes));
        }
        boxes[count] = (struct box){width, height, count};
        count++;
    }
    return 0;
}
