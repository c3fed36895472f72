#ifndef ANSWERS_H
#define ANSWERS_H

#include "desk.h"

/* What the programs say of an answer: its words, and its number in words. */

/* Reads one of the little-endian words of an answer: 0 place, 1 detail, 2 steps, 3 expected set, 4 depth. */
static uint64_t word(const uint8_t *answer, size_t index)
{
    uint64_t value = 0;
    for (size_t i = 8; i > 0; i--)
        value = value << 8 | answer[8 * index + i - 1];
    return value;
}

static const char *words(uint32_t number)
{
    static const char *const refusals[] = {
        "done", "a byte of the book is missing", "a mark of the book is wrong", "bytes follow the book",
        "a number or a length is out of range", "a symbol is not of the grammar", "a nonterminal is useless",
        "a buffer is too small", "a cell has two claimants", "the table does not fit the book",
        "a token is not of the grammar", "syntax", "a production does not fit", "refused", "a pattern is bad",
        "no token starts here", "the patterns have too many states", "a cell is not the one of the book's table",
    };
    return number < sizeof refusals / sizeof *refusals ? refusals[number] : "refused";
}

#endif
