#ifndef SHAPE_H
#define SHAPE_H

#include "desk.h"

#include <stdbool.h>

struct production {
    uint8_t left;
    uint8_t count;
    uint8_t right[DESK_MOST_SYMBOLS];
};

/* A grammar before it is written as a book. */
struct shape {
    size_t terminals;
    size_t nonterminals;
    size_t start;
    size_t productions;
    struct production production[128];
};

/* Makes a grammar of any kind: loose, tidy, mostly without conflict, a tree or a loop. */
void make_shape(struct shape *shape);

/* Whether it is one nonterminal with two productions, whose runs and lists can be of any length. */
bool is_loop(const struct shape *shape);

uint8_t any_token(const struct shape *shape);
uint8_t any_symbol(const struct shape *shape);

#endif
