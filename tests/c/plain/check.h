#ifndef PLAIN_CHECK_H
#define PLAIN_CHECK_H

#include "sets.h"
#include "steps.h"

enum { DIFFERS = 17 };

/* Who claims a cell: how many productions, and the lowest two. */
struct claimants {
    size_t count;
    size_t lowest[2];
};

static struct claimants claimants_of(const struct grammar *grammar, const uint64_t *looks, size_t row, size_t column)
{
    struct claimants found = { 0, { NO_PRODUCTION, NO_PRODUCTION } };
    uint64_t mark = column < grammar->terminals ? bit(column) : END_MARK;
    for (size_t p = 0; p < grammar->productions; p++)
        if (grammar->left[p] == row && (looks[p] & mark)) {
            if (found.count < 2)
                found.lowest[found.count] = p;
            found.count++;
        }
    return found;
}

/* Whether a table that fits is the one of its grammar, by counting claimants cell by cell: a conflict in any cell comes
   before a difference in any other. */
static bool table_is_right(const struct grammar *grammar, const uint8_t *table, struct answer *answer)
{
    uint64_t first[MOST_NONTERMINALS], follow[MOST_NONTERMINALS], looks[MOST_PRODUCTIONS];
    size_t columns = grammar->terminals + 1, cells = table_size(grammar), different = cells;
    find_first(grammar, first);
    find_follow(grammar, first, follow);
    for (size_t p = 0; p < grammar->productions; p++)
        looks[p] = lookahead(grammar, first, follow, p);
    for (size_t cell = 0; cell < cells; cell++) {
        struct claimants found = claimants_of(grammar, looks, cell / columns, cell % columns);
        if (found.count > 1)
            return refuse(answer, CONFLICT, cell, found.lowest[0] * 256 + found.lowest[1]);
        if (table[cell] != found.lowest[0] && different == cells)
            different = cell;
    }
    return different == cells || refuse(answer, DIFFERS, different, NO_DETAIL);
}

#endif
