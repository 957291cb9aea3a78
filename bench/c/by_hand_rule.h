/* One packing of single boxes by the rule of packrun. A program that includes this has defined `struct sections`, what is free
   in a bin; `push`, which puts a section there; `struct sought` and `sought_of`, a size as it is looked for; and `place`, which
   places it in the newest section that holds it, if any. Nothing is checked: no name and no id comes twice, all lines are good,
   and want of memory ends the program. */
struct bin {
    struct sized whole;
    struct sections sections;
};

struct placement {
    const struct bin *bin;
    uint32_t at[3];
};

/* Places the size in the first bin that has a section for it, if any. */
static int placed(struct bin *bins, size_t count, const uint32_t size[3], struct placement *to)
{
    struct sought sought = sought_of(size);
    for (struct bin *bin = bins; bin < bins + count; bin++) {
        to->bin = bin;
        if (place(&bin->sections, &sought, to->at))
            return 1;
    }
    return 0;
}

static int by_name(const struct sized *a, const struct sized *b)
{
    return strcmp(a->name, b->name);
}

static int by_falling_volume(const void *a, const void *b)
{
    const struct sized *one = a, *other = b;
    if (one->volume != other->volume)
        return one->volume > other->volume ? -1 : 1;
    return by_name(one, other);
}

static int by_rising_volume(const void *a, const void *b)
{
    const struct bin *one = a, *other = b;
    if (one->whole.volume != other->whole.volume)
        return one->whole.volume < other->whole.volume ? -1 : 1;
    return by_name(&one->whole, &other->whole);
}

static void print(const struct sized *boxes, const struct placement *placements, size_t count)
{
    for (size_t n = 0; n < count; n++) {
        const uint32_t *at = placements[n].at, *size = boxes[n].size;
        print_number(n, ' ');
        print_word(boxes[n].name, ' ');
        print_word(placements[n].bin->whole.name, ' ');
        for (int axis = 0; axis < 3; axis++)
            print_number(at[axis], ' ');
        for (int axis = 0; axis < 3; axis++)
            print_number(size[axis], axis < 2 ? ' ' : '\n');
    }
    print_word("packed", ' ');
    print_number(count, '\n');
}

static void pack(struct sized *boxes, size_t count, struct bin *bins, size_t bin_count)
{
    struct placement *placements = given(malloc((count + 1) * sizeof *placements));
    qsort(boxes, count, sizeof *boxes, by_falling_volume);
    qsort(bins, bin_count, sizeof *bins, by_rising_volume);
    for (size_t n = 0; n < count; n++)
        if (!placed(bins, bin_count, boxes[n].size, &placements[n])) {
            print_word("refused: Not enough space to place all of the rectangles.", '\n');
            return;
        }
    print(boxes, placements, count);
}

int main(void)
{
    struct bin *bins = NULL;
    struct sized *boxes = NULL;
    size_t bin_count = 0, bin_room = 0, count = 0, room = 0;
    for (char *word = strtok(input(), " \n"); word != NULL; word = strtok(NULL, " \n")) {
        if (word[0] == 'p') {
            pack(boxes, count, bins, bin_count);
            break;
        }
        struct sized read = next_sized();
        if (word[0] == 'b') {
            bins = grown(bins, bin_count, &bin_room, sizeof *bins);
            bins[bin_count] = (struct bin){.whole = read};
            push(&bins[bin_count++].sections, (struct section){.size = {read.size[0], read.size[1], read.size[2]}});
        } else {
            boxes = grown(boxes, count, &room, sizeof *boxes);
            boxes[count++] = read;
        }
        print_word("ok", '\n');
    }
    return 0;
}
