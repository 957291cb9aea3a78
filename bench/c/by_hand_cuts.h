/* The cuts of packrun: how a box is taken out of a section. */
static const int ORDERS[6][3] = {{0, 1, 2}, {1, 0, 2}, {0, 2, 1}, {2, 0, 1}, {1, 2, 0}, {2, 1, 0}};

/* The pieces on x, y and z where the section is cut beyond the size, on one axis after another. */
static void cut(struct section rest, const uint32_t size[3], const int order[3], struct section pieces[3])
{
    for (int n = 0; n < 3; n++) {
        int axis = order[n];
        pieces[axis] = rest;
        pieces[axis].at[axis] += size[axis];
        pieces[axis].size[axis] -= size[axis];
        rest.size[axis] = size[axis];
    }
}

/* Puts the pieces in the order of falling volumes, stably, and answers the volumes. */
static void sort(struct section pieces[3], Volume volumes[3])
{
    for (int n = 0; n < 3; n++) {
        struct section piece = pieces[n];
        Volume its = volume(piece.size);
        int to = n;
        for (; to > 0 && volumes[to - 1] < its; to--) {
            pieces[to] = pieces[to - 1];
            volumes[to] = volumes[to - 1];
        }
        pieces[to] = piece;
        volumes[to] = its;
    }
}

/* The pieces of the last of the best cuts: the one with the smallest piece, or the smallest second piece. */
static int best_cut(struct section from, const uint32_t size[3], struct section best[3])
{
    Volume least[3];
    cut(from, size, ORDERS[0], best);
    sort(best, least);
    for (int n = 1; n < 6; n++) {
        struct section next[3];
        Volume volumes[3];
        cut(from, size, ORDERS[n], next);
        sort(next, volumes);
        if (volumes[2] > least[2] || (volumes[2] == least[2] && volumes[1] > least[1]))
            continue;
        memcpy(best, next, sizeof next);
        memcpy(least, volumes, sizeof volumes);
    }
    return (least[0] > 0) + (least[1] > 0) + (least[2] > 0);
}
