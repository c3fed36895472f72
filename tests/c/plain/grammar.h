#ifndef PLAIN_GRAMMAR_H
#define PLAIN_GRAMMAR_H

#include "answer.h"

/* What the parts of plain.c share: the limits of document 01 and a book that was read. */

enum { NO_DETAIL, STACK_DETAIL, LIST_DETAIL, OUTPUT_DETAIL, FIRST_DETAIL, FOLLOW_DETAIL, TABLE_DETAIL };
enum { MOST_TERMINALS = 62, MOST_NONTERMINALS = 64, MOST_PRODUCTIONS = 128, MOST_LENGTH = 16 };
enum { MOST_TOKENS = 4096, MOST_CELLS = 65535 };
enum { NONTERMINAL = 128, NO_PRODUCTION = 255 };

#define END_MARK (UINT64_C(1) << 62)
#define EMPTY_STRING (UINT64_C(1) << 63)

/* A book that was read: right sides stay in the caller's book, and `uses` has a bit for each nonterminal in one. */
struct grammar {
    size_t terminals;
    size_t nonterminals;
    size_t start;
    size_t productions;
    uint8_t left[MOST_PRODUCTIONS];
    uint8_t length[MOST_PRODUCTIONS];
    const uint8_t *right[MOST_PRODUCTIONS];
    uint64_t uses[MOST_PRODUCTIONS];
};

static uint64_t bit(size_t index)
{
    return UINT64_C(1) << index;
}

/* The index of the lowest bit of a set that is not empty. */
static size_t lowest(uint64_t set)
{
    size_t index = 0;
    while (!(set & bit(index)))
        index++;
    return index;
}

static size_t smaller(size_t a, size_t b)
{
    return a < b ? a : b;
}

static inline size_t table_size(const struct grammar *grammar)
{
    return grammar->nonterminals * (grammar->terminals + 1);
}

#endif
