#include "examples.h"

#include "calls.h"

static const struct expand_case expansions[] = {
    { "K", &house, BYTES(0, 1, 3, 5), 3, 2, { 0, 0, 0, 6, 0 }, BYTES(0, 1), 3 },
    { "K short", &house, BYTES(0, 1, 3), 3, 2, { 12, 3, 0, 5, 0 }, BYTES(0, 1), 3 },
    { "A back", &house, BYTES(0, 1, 2, 4, 1, 3, 5), 3, 6, { 0, 0, 0, 13, 0 }, BYTES(0, 1, 2, 1, 3, 1), 3 },
    { "A back with two cells", &house, BYTES(0, 1, 2, 4, 1, 3, 5), 2, 6, { 7, 1, 1, 2, 0 }, BYTES(0), 2 },
    { "no list", &house, NONE, 3, 2, { 12, 0, 0, 0, 0 }, NONE, 1 },
    { "no list and no room", &house, NONE, 0, 0, { 7, 0, 1, 0, 0 }, NONE, 0 },
    { "left over", &house, BYTES(0, 1, 3, 5, 5), 3, 2, { 12, 4, 0, 6, 0 }, BYTES(0, 1), 3 },
    { "left over and bad", &house, BYTES(0, 1, 3, 5, 255, 0), 3, 2, { 12, 4, 0, 6, 0 }, BYTES(0, 1), 3 },
    { "no such production", &house, BYTES(0, 1, 3, 6), 3, 2, { 12, 3, 0, 5, 0 }, BYTES(0, 1), 3 },
    { "number 255", &house, BYTES(255), 3, 2, { 12, 0, 0, 0, 0 }, NONE, 1 },
    { "of another nonterminal", &house, BYTES(0, 2, 3, 5), 3, 2, { 12, 1, 0, 2, 0 }, BYTES(0), 2 },
    { "fit before room", &house, BYTES(4, 1), 1, 0, { 12, 0, 0, 0, 0 }, NONE, 1 },
    { "room of the stack", &house, BYTES(0, 1), 1, 2, { 7, 0, 1, 0, 0 }, NONE, 1 },
    { "token before list end", &house, BYTES(0), 3, 0, { 7, 1, 3, 1, 0 }, NONE, 2 },
    { "sums back", &sums, BYTES(0, 3, 7, 5, 1, 3, 7, 4, 7, 5, 2), 4, 5, { 0, 0, 0, 16, 0 },
      BYTES(4, 0, 4, 1, 4), 4 },
    { "J, which has a conflict", &ones, BYTES(0, 1, 2), 3, 4, { 0, 0, 0, 7, 0 }, BYTES(1, 1, 0, 1), 3 },
    { "too long a list", &house, { zeros, 65536 }, 3, 2, { 4, 65535, 0, 0, 0 }, NONE, 0 },
    { "far too long a list", &house, { zeros, MANY_CELLS }, 0, 0, { 4, 65535, 0, 0, 0 }, NONE, 0 },
    { "list of 65535", &house, { zeros, 65535 }, 3, 2, { 12, 1, 0, 2, 0 }, BYTES(0), 2 },
};

void check_expansions(void)
{
    for (size_t i = 0; i < COUNT(expansions); i++)
        check_expand(&expansions[i]);
}
