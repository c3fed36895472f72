#ifndef ROOMS_H
#define ROOMS_H

#include "calls.h"

/* Sizes of a buffer around the 65,535 cells that count. */
static const size_t large_rooms[] = { 65534, 65535, 65536, MANY_CELLS };

/* How many cells of a lent buffer count as room. */
static inline size_t counted(size_t cells)
{
    return cells < DESK_MOST_CELLS ? cells : DESK_MOST_CELLS;
}

#endif
