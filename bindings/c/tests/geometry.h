/* Boxes in a bin, cell by cell. To be included once in a program. */
#ifndef GEOMETRY_H
#define GEOMETRY_H

#include <string.h>

#include "rectangle_pack.h"
#include "refusing.h"

/* The longest side of a bin whose cells are filled. */
enum { SIDE = 12, AXES = 3 };

/* The cells of a bin: how often each is filled. */
typedef unsigned char cells[SIDE][SIDE][SIDE];

static uint64_t cells_of(const rp_section *it)
{
    return (uint64_t)it->width * it->height * it->depth;
}

static rp_section whole_of(const rp_bin *bin)
{
    return (rp_section){0, 0, 0, bin->width, bin->height, bin->depth};
}

static rp_section section_at(const rp_placement *at, const rp_box *box)
{
    return (rp_section){at->x, at->y, at->z, box->width, box->height, box->depth};
}

static uint32_t *corner(rp_section *it, int axis)
{
    return axis == 0 ? &it->x : axis == 1 ? &it->y : &it->z;
}

static uint32_t *side(rp_section *it, int axis)
{
    return axis == 0 ? &it->width : axis == 1 ? &it->height : &it->depth;
}

static uint32_t end(rp_section *it, int axis)
{
    return *corner(it, axis) + *side(it, axis);
}

/* Fills the cells of a free section or of a box. It is inside the bin, and fills none that is filled. How many there are. */
static uint64_t fill(cells filled, const rp_bin *bin, const rp_section *it)
{
    check((uint64_t)it->x + it->width <= bin->width, "a section or a box is too wide");
    check((uint64_t)it->y + it->height <= bin->height, "a section or a box is too high");
    check((uint64_t)it->z + it->depth <= bin->depth, "a section or a box is too deep");
    for (uint32_t x = 0; x < it->width; x++)
        for (uint32_t y = 0; y < it->height; y++)
            for (uint32_t z = 0; z < it->depth; z++)
                check(!filled[it->x + x][it->y + y][it->z + z]++, "a cell is free or placed twice");
    return cells_of(it);
}

#endif
