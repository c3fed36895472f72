#include "shape.h"

#include "pick.h"

#include <string.h>

uint8_t any_token(const struct shape *shape)
{
    return (uint8_t)pick(0, shape->terminals - 1);
}

uint8_t any_symbol(const struct shape *shape)
{
    return chance(50) ? any_token(shape) : (uint8_t)(DESK_NONTERMINAL + pick(0, shape->nonterminals - 1));
}

static size_t any_length(const struct shape *shape)
{
    if (shape->nonterminals > 5 && chance(20))
        return pick(0, DESK_MOST_SYMBOLS);
    return pick(0, 4);
}

/* Sizes of a grammar: mostly small ones, some middling, some up to the limits and some at them. */
static void pick_sizes(struct shape *shape)
{
    size_t kind = pick(0, 39);
    size_t scale = kind < 28 ? 0 : kind < 36 ? 1 : 2;
    static const size_t most_terminals[] = { 6, 20, 62 };
    static const size_t most_nonterminals[] = { 5, 16, 64 };
    static const size_t most_productions[] = { 12, 50, 128 };
    shape->terminals = kind == 39 ? 62 : pick(1, most_terminals[scale]);
    shape->nonterminals = kind == 39 ? 64 : pick(1, most_nonterminals[scale]);
    shape->productions = kind == 39 ? 128 : pick(shape->nonterminals, most_productions[scale]);
    shape->start = pick(0, shape->nonterminals - 1);
}

static void fill_any(const struct shape *shape, struct production *production)
{
    production->left = (uint8_t)pick(0, shape->nonterminals - 1);
    production->count = (uint8_t)any_length(shape);
    for (size_t i = 0; i < production->count; i++)
        production->right[i] = any_symbol(shape);
}

/* A grammar of any productions, in which most often something is useless. */
static void make_loose(struct shape *shape)
{
    pick_sizes(shape);
    for (size_t p = 0; p < shape->productions; p++)
        fill_any(shape, &shape->production[p]);
}

static void insert_symbol(struct production *production, size_t at, uint8_t symbol)
{
    memmove(production->right + at + 1, production->right + at, production->count - at);
    production->right[at] = symbol;
    production->count++;
}

static void shuffle_nonterminals(uint8_t *order, size_t count)
{
    for (size_t i = 0; i < count; i++)
        order[i] = (uint8_t)i;
    for (size_t i = count; i > 1; i--) {
        size_t k = pick(0, i - 1);
        uint8_t kept = order[i - 1];
        order[i - 1] = order[k];
        order[k] = kept;
    }
}

static void shuffle_productions(struct shape *shape)
{
    for (size_t i = shape->productions; i > 1; i--) {
        size_t k = pick(0, i - 1);
        struct production kept = shape->production[i - 1];
        shape->production[i - 1] = shape->production[k];
        shape->production[k] = kept;
    }
}

/* A production of the k-th nonterminal in order that uses only later ones, so that it ends in tokens. */
static void fill_ending(const struct shape *shape, const uint8_t *order, size_t k, struct production *production)
{
    production->left = order[k];
    production->count = (uint8_t)smaller(any_length(shape), 10);
    for (size_t i = 0; i < production->count; i++) {
        bool token = k + 1 == shape->nonterminals || chance(60);
        production->right[i] = token ? any_token(shape)
                                     : (uint8_t)(DESK_NONTERMINAL + order[pick(k + 1, shape->nonterminals - 1)]);
    }
}

/* Puts the k-th nonterminal into a production of an earlier one, so that it is reached. */
static void reach(struct shape *shape, const uint8_t *order, size_t k)
{
    size_t parent = pick(0, k - 1);
    while (shape->production[parent].count == DESK_MOST_SYMBOLS)
        parent = (parent + 1) % k;
    struct production *production = &shape->production[parent];
    insert_symbol(production, pick(0, production->count), (uint8_t)(DESK_NONTERMINAL + order[k]));
}

/* A grammar without useless nonterminals: each has a production that ends and stands in one that is reached. */
static void make_tidy(struct shape *shape)
{
    uint8_t order[64] = { 0 };
    pick_sizes(shape);
    shuffle_nonterminals(order, shape->nonterminals);
    shape->start = order[0];
    for (size_t k = 0; k < shape->nonterminals; k++)
        fill_ending(shape, order, k, &shape->production[k]);
    for (size_t k = 1; k < shape->nonterminals; k++)
        reach(shape, order, k);
    for (size_t p = shape->nonterminals; p < shape->productions; p++)
        fill_any(shape, &shape->production[p]);
}

/* A tidy grammar whose productions mostly begin with a token of their own, so that conflicts are rarer. */
static void make_choosy(struct shape *shape)
{
    uint8_t fresh[64] = { 0 };
    make_tidy(shape);
    for (size_t p = 0; p < shape->productions; p++) {
        struct production *production = &shape->production[p];
        bool base = p < shape->nonterminals;
        bool full = production->count == DESK_MOST_SYMBOLS || fresh[production->left] == shape->terminals;
        if (!full && !(base && chance(30)))
            insert_symbol(production, 0, fresh[production->left]++);
    }
    size_t most = shape->nonterminals + pick(0, shape->nonterminals * 2);
    shape->productions = smaller(shape->productions, most);
}

/* Fills right sides up to the limit with tokens, for the longest books. */
static void lengthen(struct shape *shape)
{
    for (size_t p = 0; p < shape->productions; p++)
        while (shape->production[p].count < DESK_MOST_SYMBOLS)
            shape->production[p].right[shape->production[p].count++] = any_token(shape);
}

/* A chain in which each nonterminal is twice the next one, the last one vanishing or a token. */
static void make_tree(struct shape *shape)
{
    shape->terminals = pick(1, 3);
    shape->nonterminals = pick(1, 18);
    shape->start = 0;
    shape->productions = shape->nonterminals;
    for (size_t n = 0; n < shape->nonterminals; n++) {
        struct production *production = &shape->production[n];
        production->left = (uint8_t)n;
        production->count = n + 1 < shape->nonterminals ? 2 : (uint8_t)pick(0, 1);
        memset(production->right, n + 1 < shape->nonterminals ? DESK_NONTERMINAL + (int)n + 1 : 0, 2);
    }
}

/* One nonterminal that calls itself at the front or at the back, which takes stacks and lists to their limits. */
static void make_loop(struct shape *shape)
{
    shape->terminals = pick(1, 2);
    shape->nonterminals = 1;
    shape->start = 0;
    shape->productions = 2;
    struct production *production = shape->production;
    production[0].left = production[1].left = 0;
    production[0].count = (uint8_t)(chance(50) ? pick(1, 3) : pick(1, 16));
    for (size_t i = 0; i < production[0].count; i++)
        production[0].right[i] = any_token(shape);
    size_t itself = chance(50) ? 0 : production[0].count - 1;
    production[0].right[itself] = DESK_NONTERMINAL;
    production[1].count = (uint8_t)pick(0, 1);
    production[1].right[0] = any_token(shape);
}

bool is_loop(const struct shape *shape)
{
    return shape->nonterminals == 1 && shape->productions == 2;
}

void make_shape(struct shape *shape)
{
    size_t kind = pick(0, 99);
    if (kind < 12)
        make_loose(shape);
    else if (kind < 40)
        make_tidy(shape);
    else if (kind < 93)
        make_choosy(shape);
    else if (kind < 96)
        make_tree(shape);
    else
        make_loop(shape);
    if (kind >= 12 && chance(2))
        lengthen(shape);
    if (chance(60))
        shuffle_productions(shape);
}
