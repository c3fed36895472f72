#include "examples.h"

#include "calls.h"

#include <string.h>

#define X DESK_SLR_NONE
#define CELLS(array) array, COUNT(array)

/* S -> A a, S -> b, A -> A a, A -> empty, with its table; and some that nobody built. */
#define LEFT BYTES('G', 'R', 2, 2, 0, 4, 'P', 'R', 0, 2, 129, 0, 'P', 'R', 0, 1, 1, 'P', 'R', 1, 2, 129, 0, 'P', 'R', 1, 0)

static const uint16_t left[] = {
    515, 1, X, 2, 3, X, X, 513, X, X, X, X, 1023, X, X, 4, X, X, X, X, 514, X, 512, X, X,
};
static const uint16_t no_move[] = {
    515, 1, X, X, 3, X, X, 513, X, X, X, X, 1023, X, X, 4, X, X, X, X, 514, X, 512, X, X,
};
static const uint16_t no_state[] = {
    515, 1, X, 2, 3, X, X, 512, X, X, X, X, 1023, X, X, 4, X, X, X, X, 514, X, 512, X, X,
};

/* The house book's. */
static const uint16_t of_house[] = {
    1, X, X, X, X, 2, X, X, X,      X, 3, X, X, X, X, 4, X, X,      X, X, X, X, 1023, X, X, X, X,
    X, X, 5, 515, 515, X, X, 6, X,  X, X, X, X, 512, X, X, X, X,    X, 7, X, X, X, X, X, X, X,
    X, X, X, 8, 517, X, X, X, 9,    X, X, X, 514, 514, X, X, X, X,  X, 3, X, X, X, X, 10, X, X,
    X, X, X, X, 513, X, X, X, X,    X, X, X, X, 516, X, X, X, X,
};

/* S -> empty, S -> 0, with tables of one row. */
#define TINY BYTES('G', 'R', 1, 1, 0, 2, 'P', 'R', 0, 0, 'P', 'R', 0, 1, 0)

static const uint16_t without_end[] = { X, 512, 0 };
static const uint16_t one_too_many[] = { X, 513, 0 };
static const uint16_t unmoved[] = { X, 512, X };
static const uint16_t accepts_early[] = { 1023, 512, 0 };
static const uint16_t shifts_at_the_end[] = { X, 0, 0 };
static const uint16_t no_such_row[] = { X, 512, 1 };
static const uint16_t no_such_production[] = { X, 514, 0 };

static const struct slr_case runs[] = {
    { "0 0 0", LEFT, CELLS(left), BYTES(0, 0, 0), 3, 4, { 0, 0, 0, 7, 0 }, BYTES(3, 2, 2, 0), 3 },
    { "0 0 0 with more room", LEFT, CELLS(left), BYTES(0, 0, 0), 9, 9, { 0, 0, 0, 7, 0 }, BYTES(3, 2, 2, 0), 3 },
    { "0 0 0, stack 2", LEFT, CELLS(left), BYTES(0, 0, 0), 2, 4, { 7, 0, 1, 1, 0 }, BYTES(3), 2 },
    { "0 0 0, list 3", LEFT, CELLS(left), BYTES(0, 0, 0), 3, 3, { 7, 3, 2, 6, 0 }, BYTES(3, 2, 2), 3 },
    { "0 0 0, stack 1, list 0", LEFT, CELLS(left), BYTES(0, 0, 0), 1, 0, { 7, 0, 2, 0, 0 }, NONE, 1 },
    { "0 0 0, stack 1, list 1", LEFT, CELLS(left), BYTES(0, 0, 0), 1, 1, { 7, 0, 1, 0, 0 }, NONE, 1 },
    { "1", LEFT, CELLS(left), BYTES(1), 2, 1, { 0, 0, 0, 2, 0 }, BYTES(1), 2 },
    { "no tokens", LEFT, CELLS(left), NONE, 3, 4, { 11, 0, 0, 0, 0x3 }, NONE, 1 },
    { "0 1", LEFT, CELLS(left), BYTES(0, 1), 3, 4, { 11, 1, 0, 2, END | 0x1 }, BYTES(3), 3 },
    { "1 0", LEFT, CELLS(left), BYTES(1, 0), 3, 4, { 11, 1, 0, 1, END }, NONE, 2 },
    { "no stack cell", LEFT, CELLS(left), BYTES(0), 0, 4, { 7, 0, 1, 0, 0 }, NONE, 0 },
    { "token 2", LEFT, CELLS(left), BYTES(2), 0, 4, { 10, 0, 0, 0, 0 }, NONE, 0 },
    { "4,097 tokens", LEFT, CELLS(left), { zeros, 4097 }, 0, 0, { 4, 4096, 0, 0, 0 }, NONE, 0 },
    { "no move where it is uncovered", LEFT, CELLS(no_move), BYTES(1), 3, 4, { 11, 1, 0, 1, END }, NONE, 2 },
    { "no state left", LEFT, CELLS(no_state), BYTES(1), 3, 4, { 11, 1, 0, 1, END }, NONE, 2 },
    { "house", ALL_OF(house_book), CELLS(of_house), BYTES(0, 1, 2, 1, 3, 1), 8, 7, { 0, 0, 0, 13, 0 },
      BYTES(2, 3, 5, 1, 4, 1, 0), 8 },
    { "house 0 1 1", ALL_OF(house_book), CELLS(of_house), BYTES(0, 1, 1), 8, 7, { 11, 2, 0, 2, END | 0xc }, NONE, 3 },
    { "without end, list 3", TINY, CELLS(without_end), NONE, 5, 3, { 7, 0, 2, 3, 0 }, BYTES(0, 0, 0), 4 },
    { "without end, stack 3", TINY, CELLS(without_end), NONE, 3, 9, { 7, 0, 1, 2, 0 }, BYTES(0, 0), 3 },
    { "one symbol too many", TINY, CELLS(one_too_many), NONE, 5, 3, { 11, 0, 0, 0, END }, NONE, 1 },
    { "no move", TINY, CELLS(unmoved), NONE, 5, 3, { 11, 0, 0, 0, END }, NONE, 1 },
    { "accept under a token", TINY, CELLS(accepts_early), NONE, 5, 3, { 9, 0, 0, 0, 0 }, NONE, 0 },
    { "shift at the end", TINY, CELLS(shifts_at_the_end), NONE, 5, 3, { 9, 1, 0, 0, 0 }, NONE, 0 },
    { "no such row", TINY, CELLS(no_such_row), NONE, 5, 3, { 9, 2, 0, 0, 0 }, NONE, 0 },
    { "no such production", TINY, CELLS(no_such_production), NONE, 5, 3, { 9, 1, 0, 0, 0 }, NONE, 0 },
    { "two cells", TINY, without_end, 2, NONE, 5, 3, { 9, 2, 0, 0, 0 }, NONE, 0 },
    { "no table", TINY, without_end, 0, NONE, 0, 0, { 9, 0, 0, 0, 0 }, NONE, 0 },
};

/* Rows of nothing: 256 are run, and 257 are too many. */
static void check_most_rows(void)
{
    static uint16_t rows[257 * 3];
    memset(rows, 0xff, sizeof rows);
    check_slr_run(&(struct slr_case){ "256 rows", TINY, rows, 256 * 3, NONE, 5, 3, { 11, 0, 0, 0, 0 }, NONE, 1 });
    check_slr_run(&(struct slr_case){ "257 rows", TINY, rows, 257 * 3, NONE, 5, 3, { 9, 771, 0, 0, 0 }, NONE, 0 });
}

void check_slr_runs(void)
{
    for (size_t i = 0; i < COUNT(runs); i++)
        check_slr_run(&runs[i]);
    check_most_rows();
}
