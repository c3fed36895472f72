#ifndef PLAIN_PROFILE_H
#define PLAIN_PROFILE_H

#include "steps.h"

/* The profile by a bit for each nonterminal and token, and a run that looks for each production in the book. */

enum { PROFILE = 21 };

/* Whether every right side starts with a token that no lower production of its left side starts with. */
static bool is_plain(const struct grammar *grammar, struct answer *answer)
{
    uint64_t started[MOST_NONTERMINALS] = { 0 };
    for (size_t p = 0; p < grammar->productions; p++) {
        uint64_t *starts = &started[grammar->left[p]];
        if (grammar->length[p] == 0 || grammar->right[p][0] >= NONTERMINAL || (*starts & bit(grammar->right[p][0])))
            return refuse(answer, PROFILE, p, NO_DETAIL);
        *starts |= bit(grammar->right[p][0]);
    }
    return true;
}

/* The production of a nonterminal that starts with a token, or none; the tokens that its productions start with. */
static size_t find_start(const struct grammar *grammar, uint8_t nonterminal, uint8_t token)
{
    for (size_t p = 0; p < grammar->productions; p++)
        if (grammar->left[p] == nonterminal && grammar->right[p][0] == token)
            return p;
    return NO_PRODUCTION;
}

static uint64_t all_starts(const struct grammar *grammar, uint8_t nonterminal)
{
    uint64_t set = 0;
    for (size_t p = 0; p < grammar->productions; p++)
        if (grammar->left[p] == nonterminal)
            set |= bit(grammar->right[p][0]);
    return set;
}

static void profile_steps(const struct grammar *grammar, const uint8_t *tokens, size_t count, uint8_t *stack,
                          size_t stack_room, uint8_t *list, size_t list_room, struct answer *answer)
{
    size_t matched = 0, listed = 0, depth = 1, deepest = 1;
    stack[0] = (uint8_t)(NONTERMINAL + grammar->start);
    while (depth > 0) {
        uint8_t top = stack[depth - 1], left = (uint8_t)(top - NONTERMINAL);
        bool more = matched < count;
        if (top < NONTERMINAL && more && tokens[matched] == top) {
            matched++;
            depth--;
            continue;
        }
        if (top < NONTERMINAL) {
            stop(answer, matched, bit(top));
            break;
        }
        size_t p = more ? find_start(grammar, left, tokens[matched]) : NO_PRODUCTION;
        if (p == NO_PRODUCTION)
            stop(answer, matched, all_starts(grammar, left));
        else if (listed == list_room)
            refuse(answer, ROOM, matched, LIST_DETAIL);
        else if (depth - 1 + grammar->length[p] > stack_room)
            refuse(answer, ROOM, matched, STACK_DETAIL);
        if (answer->number != DONE)
            break;
        list[listed++] = (uint8_t)p;
        depth = replace_top(grammar, stack, depth, p);
        deepest = depth > deepest ? depth : deepest;
    }
    if (depth == 0 && matched < count)
        stop(answer, matched, END_MARK);
    answer->steps = listed + matched;
    answer->depth = deepest;
}

#endif
