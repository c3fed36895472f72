#ifndef PLAIN_SETS_H
#define PLAIN_SETS_H

#include "grammar.h"

#include <string.h>

static uint64_t join(uint64_t x, uint64_t y)
{
    return (x & EMPTY_STRING) ? (x & ~EMPTY_STRING) | y : x;
}

static uint64_t first_of_symbol(const uint64_t *first, uint8_t symbol)
{
    return symbol < NONTERMINAL ? bit(symbol) : first[symbol - NONTERMINAL];
}

static uint64_t first_of_string(const uint64_t *first, const uint8_t *symbols, size_t length)
{
    uint64_t set = EMPTY_STRING;
    for (size_t i = 0; i < length && (set & EMPTY_STRING); i++)
        set = join(set, first_of_symbol(first, symbols[i]));
    return set;
}

/* How many symbols can vanish before the first that cannot. */
static size_t leading_vanishing(const uint64_t *first, const uint8_t *symbols, size_t length)
{
    size_t count = 0;
    while (count < length && (first_of_symbol(first, symbols[count]) & EMPTY_STRING))
        count++;
    return count;
}

/* Fills the first N cells with FIRST, growing the sets until a whole pass adds nothing. */
static void find_first(const struct grammar *grammar, uint64_t *first)
{
    memset(first, 0, grammar->nonterminals * sizeof *first);
    for (bool grown = true; grown;) {
        grown = false;
        for (size_t p = 0; p < grammar->productions; p++) {
            uint64_t *set = &first[grammar->left[p]];
            uint64_t before = *set;
            *set |= first_of_string(first, grammar->right[p], grammar->length[p]);
            grown |= *set != before;
        }
    }
}

/* Adds what production p says of FOLLOW, from its last symbol back; `after` is what can follow the one at hand. */
static bool spread_follow(const struct grammar *grammar, const uint64_t *first, uint64_t *follow, size_t p)
{
    uint64_t after = follow[grammar->left[p]];
    bool grown = false;
    for (size_t i = grammar->length[p]; i > 0; i--) {
        uint8_t symbol = grammar->right[p][i - 1];
        if (symbol >= NONTERMINAL) {
            grown |= (after & ~follow[symbol - NONTERMINAL]) != 0;
            follow[symbol - NONTERMINAL] |= after;
        }
        after = join(first_of_symbol(first, symbol), after);
    }
    return grown;
}

/* Fills the first N cells with FOLLOW, growing the sets until a whole pass adds nothing. */
static void find_follow(const struct grammar *grammar, const uint64_t *first, uint64_t *follow)
{
    memset(follow, 0, grammar->nonterminals * sizeof *follow);
    follow[grammar->start] = END_MARK;
    for (bool grown = true; grown;) {
        grown = false;
        for (size_t p = 0; p < grammar->productions; p++)
            grown |= spread_follow(grammar, first, follow, p);
    }
}

static uint64_t lookahead(const struct grammar *grammar, const uint64_t *first, const uint64_t *follow, size_t p)
{
    return join(first_of_string(first, grammar->right[p], grammar->length[p]), follow[grammar->left[p]]);
}

/* The column of a bit of a lookahead, where the end mark is the last column. */
static size_t column_of(const struct grammar *grammar, size_t index)
{
    return smaller(index, grammar->terminals);
}

/* Refuses with the two lowest claimants of the lowest column that `twice` has in row A. */
static bool refuse_conflict(const struct grammar *grammar, const uint64_t *looks, size_t row, uint64_t twice,
                            struct answer *answer)
{
    size_t index = lowest(twice);
    size_t claimants[2] = { 0, 0 };
    size_t found = 0;
    for (size_t p = 0; found < 2; p++)
        if (grammar->left[p] == row && (looks[p] & bit(index)))
            claimants[found++] = p;
    size_t cell = row * (grammar->terminals + 1) + column_of(grammar, index);
    return refuse(answer, CONFLICT, cell, claimants[0] * 256 + claimants[1]);
}

/* Whether no cell has two claimants; nothing is filled before this is known. */
static bool no_conflict(const struct grammar *grammar, const uint64_t *looks, struct answer *answer)
{
    uint64_t once[MOST_NONTERMINALS] = { 0 };
    uint64_t twice[MOST_NONTERMINALS] = { 0 };
    for (size_t p = 0; p < grammar->productions; p++) {
        size_t row = grammar->left[p];
        twice[row] |= once[row] & looks[p];
        once[row] |= looks[p];
    }
    for (size_t row = 0; row < grammar->nonterminals; row++)
        if (twice[row])
            return refuse_conflict(grammar, looks, row, twice[row], answer);
    return true;
}

static void fill_table(const struct grammar *grammar, const uint64_t *looks, uint8_t *table)
{
    memset(table, NO_PRODUCTION, table_size(grammar));
    for (size_t p = 0; p < grammar->productions; p++) {
        uint8_t *row = table + grammar->left[p] * (grammar->terminals + 1);
        for (size_t t = 0; t < grammar->terminals; t++)
            if (looks[p] & bit(t))
                row[t] = (uint8_t)p;
        if (looks[p] & END_MARK)
            row[grammar->terminals] = (uint8_t)p;
    }
}

/* Builds in sets of its own, so that a conflict leaves the lent ones as they were. */
static bool build(const struct grammar *grammar, uint64_t *first, uint64_t *follow, uint8_t *table,
                  struct answer *answer)
{
    uint64_t own_first[MOST_NONTERMINALS];
    uint64_t own_follow[MOST_NONTERMINALS];
    uint64_t looks[MOST_PRODUCTIONS];
    find_first(grammar, own_first);
    find_follow(grammar, own_first, own_follow);
    for (size_t p = 0; p < grammar->productions; p++)
        looks[p] = lookahead(grammar, own_first, own_follow, p);
    if (!no_conflict(grammar, looks, answer))
        return false;
    memcpy(first, own_first, grammar->nonterminals * sizeof *first);
    memcpy(follow, own_follow, grammar->nonterminals * sizeof *follow);
    fill_table(grammar, looks, table);
    return true;
}

#endif
