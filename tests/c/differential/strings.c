#include "inputs.h"

#include <string.h>

enum { NO_COST = 1000000 };

/* A derivation, complete or stopped at a bound: its tokens and its productions. */
struct derivation {
    uint8_t tokens[MANY_CELLS];
    size_t token_count;
    uint8_t list[MANY_CELLS];
    size_t list_count;
};

static struct derivation derived;

/* For each nonterminal the production with which it ends soonest, and how many productions that takes. */
static void find_cheapest(const struct shape *shape, size_t *cost, size_t *cheapest)
{
    for (size_t n = 0; n < shape->nonterminals; n++)
        cost[n] = NO_COST;
    for (bool better = true; better;) {
        better = false;
        for (size_t p = 0; p < shape->productions; p++) {
            const struct production *production = &shape->production[p];
            size_t sum = 1;
            for (size_t i = 0; i < production->count && sum < NO_COST; i++)
                if (production->right[i] >= DESK_NONTERMINAL)
                    sum += cost[production->right[i] - DESK_NONTERMINAL];
            if (sum < cost[production->left]) {
                cost[production->left] = sum;
                cheapest[production->left] = p;
                better = true;
            }
        }
    }
}

static size_t any_production_of(const struct shape *shape, size_t left)
{
    size_t p = pick(0, shape->productions - 1);
    while (shape->production[p].left != left)
        p = (p + 1) % shape->productions;
    return p;
}

/* Derives a token string from the start: productions at random for a while, then those that end soonest. */
static void derive(const struct shape *shape, size_t at_random, size_t most_steps)
{
    static uint8_t stack[MANY_CELLS];
    size_t cost[64], cheapest[64], depth = 1;
    derived.token_count = derived.list_count = 0;
    find_cheapest(shape, cost, cheapest);
    stack[0] = (uint8_t)(DESK_NONTERMINAL + shape->start);
    while (depth > 0 && depth < MANY_CELLS - DESK_MOST_SYMBOLS
           && derived.token_count + derived.list_count < most_steps) {
        uint8_t top = stack[--depth];
        if (top < DESK_NONTERMINAL) {
            derived.tokens[derived.token_count++] = top;
            continue;
        }
        size_t left = top - DESK_NONTERMINAL;
        if (cost[left] == NO_COST)
            return;
        size_t p = derived.list_count < at_random ? any_production_of(shape, left) : cheapest[left];
        derived.list[derived.list_count++] = (uint8_t)p;
        for (size_t i = shape->production[p].count; i > 0; i--)
            stack[depth++] = shape->production[p].right[i - 1];
    }
}

void make_derivation(const struct shape *shape)
{
    size_t at_random = chance(90) ? pick(0, 20) : pick(0, 2000);
    derive(shape, at_random, chance(98) ? FEW_STEPS : MANY_CELLS);
}

static void set_string(const uint8_t *bytes, size_t length)
{
    memcpy(in.string, bytes, length);
    in.string_length = length;
}

static void make_random_string(size_t most_length, size_t most_byte)
{
    in.string_length = pick(0, most_length);
    for (size_t i = 0; i < in.string_length; i++)
        in.string[i] = (uint8_t)pick(0, most_byte);
}

void make_tokens(const struct shape *shape)
{
    size_t kind = pick(0, 99);
    set_string(derived.tokens, derived.token_count);
    if (kind >= 60 && kind < 72 && in.string_length > 0) {
        size_t at = pick(0, in.string_length - 1);
        in.string[at] = any_token(shape);
    } else if (kind >= 72 && kind < 76)
        damage(in.string, in.string_length);
    else if (kind >= 76 && kind < 82)
        in.string_length = pick(0, in.string_length);
    else if (kind >= 82 && kind < 87 && in.string_length < MANY_CELLS)
        in.string[in.string_length++] = any_token(shape);
    else if (kind >= 87 && kind < 96)
        make_random_string(12, shape->terminals - 1);
    else if (kind >= 96 && kind < 98)
        make_random_string(12, shape->terminals);
    else if (kind >= 98) {
        make_random_string(10, shape->terminals - 1);
        memset(in.string + in.string_length, (int)pick(0, 64), 5000);
        in.string_length = chance(40) ? 4096 : chance(50) ? 4097 : 5000;
    }
}

void make_list(const struct shape *shape)
{
    size_t kind = is_loop(shape) && chance(15) ? 99 : pick(0, 99);
    set_string(derived.list, derived.list_count);
    if (kind >= 60 && kind < 72)
        damage(in.string, in.string_length);
    else if (kind >= 72 && kind < 82)
        in.string_length = pick(0, in.string_length);
    else if (kind >= 82 && kind < 92)
        in.string_length = extend(in.string, in.string_length, MANY_CELLS);
    else if (kind >= 92 && kind < 97)
        make_random_string(12, shape->productions);
    else if (kind >= 97) {
        size_t kept = chance(50) ? 0 : in.string_length;
        memset(in.string + kept, (int)pick(0, shape->productions), MANY_CELLS - kept);
        in.string_length = pick(65534, 65537);
    }
}

void make_symbols(const struct shape *shape)
{
    in.string_length = chance(90) ? pick(0, 5) : pick(0, 18);
    for (size_t i = 0; i < in.string_length; i++)
        in.string[i] = any_symbol(shape);
    if (chance(15))
        damage(in.string, in.string_length);
}
