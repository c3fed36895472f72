#ifndef BOOKS_H
#define BOOKS_H

#include "check.h"

/* A book with its sets and its table, or the conflict that building meets. */
struct grammar {
    const char *name;
    struct slice book;
    const uint64_t *first;
    const uint64_t *follow;
    struct slice table;
    struct wanted built;
};

extern const struct grammar house, house_one, ones, slides, sums, letters, prefix, words;
extern const struct grammar weak, vanishing, at_end, through, twins, leading;

/* The sizes that the book's header gives. */
static inline size_t terminals_of(const struct grammar *grammar)
{
    return grammar->book.bytes[2];
}

static inline size_t nonterminals_of(const struct grammar *grammar)
{
    return grammar->book.bytes[3];
}

static inline size_t productions_of(const struct grammar *grammar)
{
    return grammar->book.bytes[5];
}

static inline size_t table_size(const struct grammar *grammar)
{
    return nonterminals_of(grammar) * (terminals_of(grammar) + 1);
}

#endif
