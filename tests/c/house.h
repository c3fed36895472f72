#ifndef HOUSE_H
#define HOUSE_H

#include "desk.h"

/* Nonterminal n as a book's symbol. */
#define N(nonterminal) (DESK_NONTERMINAL + (nonterminal))

/* House book H: tokens restore, name, in, and. */
static const uint8_t house_book[] = {
    'G', 'R', 4, 4, 0, 6,
    'P', 'R', 0, 2, 0, N(1),
    'P', 'R', 1, 3, 1, N(2), N(3),
    'P', 'R', 2, 2, 2, 1,
    'P', 'R', 2, 0,
    'P', 'R', 3, 2, 3, N(1),
    'P', 'R', 3, 0,
};
_Static_assert(sizeof house_book == 39, "house book");

#endif
