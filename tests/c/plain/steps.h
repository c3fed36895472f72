#ifndef PLAIN_STEPS_H
#define PLAIN_STEPS_H

#include "grammar.h"

static bool table_fits(const struct grammar *grammar, const uint8_t *table, size_t table_len, struct answer *answer)
{
    if (table_len != table_size(grammar))
        return refuse(answer, TABLE, table_len, NO_DETAIL);
    size_t cell = 0;
    for (size_t row = 0; row < grammar->nonterminals; row++)
        for (size_t column = 0; column <= grammar->terminals; column++, cell++) {
            uint8_t p = table[cell];
            if (p != NO_PRODUCTION && (p >= grammar->productions || grammar->left[p] != row))
                return refuse(answer, TABLE, cell, NO_DETAIL);
        }
    return true;
}

static bool tokens_fit(const struct grammar *grammar, const uint8_t *tokens, size_t tokens_len, struct answer *answer)
{
    if (tokens_len > MOST_TOKENS)
        return refuse(answer, LIMIT, MOST_TOKENS, NO_DETAIL);
    for (size_t i = 0; i < tokens_len; i++)
        if (tokens[i] >= grammar->terminals)
            return refuse(answer, TOKEN, i, NO_DETAIL);
    return true;
}

/* The filled columns of a row, which are what a run could have gone on with. */
static uint64_t filled_columns(const struct grammar *grammar, const uint8_t *row)
{
    uint64_t set = row[grammar->terminals] == NO_PRODUCTION ? 0 : END_MARK;
    for (size_t t = 0; t < grammar->terminals; t++)
        if (row[t] != NO_PRODUCTION)
            set |= bit(t);
    return set;
}

/* Puts the right side of production p where the stack's top was, leftmost on top, and returns the new depth. */
static size_t replace_top(const struct grammar *grammar, uint8_t *restrict stack, size_t depth, size_t p)
{
    const uint8_t *right = grammar->right[p];
    depth--;
    for (size_t i = grammar->length[p]; i > 0; i--)
        stack[depth++] = right[i - 1];
    return depth;
}

/* Stops a run with a token or a nonterminal it cannot go on with. */
static void stop(struct answer *answer, size_t matched, uint64_t expected)
{
    refuse(answer, SYNTAX, matched, NO_DETAIL);
    answer->expected = expected;
}

static void run_steps(const struct grammar *grammar, const uint8_t *restrict table, const uint8_t *restrict tokens,
                      size_t count, uint8_t *restrict stack, size_t stack_room, uint8_t *restrict list,
                      size_t list_room, struct answer *answer)
{
    size_t columns = grammar->terminals + 1;
    size_t matched = 0, listed = 0, depth = 1, deepest = 1;
    stack[0] = (uint8_t)(NONTERMINAL + grammar->start);
    while (depth > 0) {
        uint8_t top = stack[depth - 1];
        if (top < NONTERMINAL) {
            if (matched == count || tokens[matched] != top) {
                stop(answer, matched, bit(top));
                break;
            }
            matched++;
            depth--;
            continue;
        }
        const uint8_t *row = table + (size_t)(top - NONTERMINAL) * columns;
        uint8_t p = row[matched < count ? tokens[matched] : columns - 1];
        if (p == NO_PRODUCTION) {
            stop(answer, matched, filled_columns(grammar, row));
            break;
        }
        if (listed == list_room) {
            refuse(answer, ROOM, matched, LIST_DETAIL);
            break;
        }
        if (depth - 1 + grammar->length[p] > stack_room) {
            refuse(answer, ROOM, matched, STACK_DETAIL);
            break;
        }
        list[listed++] = p;
        depth = replace_top(grammar, stack, depth, p);
        if (deepest < depth)
            deepest = depth;
    }
    if (depth == 0 && matched < count)
        stop(answer, matched, END_MARK);
    answer->steps = listed + matched;
    answer->depth = deepest;
}

static void expand_steps(const struct grammar *grammar, const uint8_t *restrict list, size_t count,
                         uint8_t *restrict stack, size_t stack_room, uint8_t *restrict tokens, size_t tokens_room,
                         struct answer *answer)
{
    size_t used = 0, written = 0, depth = 1, deepest = 1;
    stack[0] = (uint8_t)(NONTERMINAL + grammar->start);
    while (depth > 0) {
        uint8_t top = stack[depth - 1];
        if (top < NONTERMINAL) {
            if (written == tokens_room) {
                refuse(answer, ROOM, used, OUTPUT_DETAIL);
                break;
            }
            tokens[written++] = top;
            depth--;
            continue;
        }
        if (used == count || list[used] >= grammar->productions || grammar->left[list[used]] != top - NONTERMINAL) {
            refuse(answer, PRODUCTION, used, NO_DETAIL);
            break;
        }
        if (depth - 1 + grammar->length[list[used]] > stack_room) {
            refuse(answer, ROOM, used, STACK_DETAIL);
            break;
        }
        depth = replace_top(grammar, stack, depth, list[used++]);
        if (deepest < depth)
            deepest = depth;
    }
    if (depth == 0 && used < count)
        refuse(answer, PRODUCTION, used, NO_DETAIL);
    answer->steps = used + written;
    answer->depth = deepest;
}

#endif
