#include "needs.h"

#include "plain.h"

size_t size_near(size_t need)
{
    static const size_t borders[] = { 65534, 65535, 65536, MANY_CELLS };
    if (chance(3))
        return borders[pick(0, 3)];
    switch (pick(0, 14)) {
    case 0:
        return need > 0 ? need - 1 : 0;
    case 1:
        return need + 1;
    case 2:
        return pick(0, need);
    case 3:
        return pick(0, 2);
    case 4:
        return need + pick(1, 40);
    default:
        return need;
    }
}

size_t answer_size(void)
{
    if (chance(90))
        return DESK_ANSWER_SIZE;
    if (chance(20))
        return pick(DESK_ANSWER_SIZE - 8, DESK_ANSWER_SIZE - 1);
    return chance(50) ? pick(0, DESK_ANSWER_SIZE - 1) : pick(DESK_ANSWER_SIZE + 1, DESK_ANSWER_SIZE + 16);
}

size_t set_cells(void)
{
    return chance(30) ? 64 : smaller(size_near(in.shape.nonterminals), 200);
}

uint64_t word_at(const uint8_t *bytes)
{
    uint64_t word = 0;
    for (size_t i = 8; i > 0; i--)
        word = word << 8 | bytes[i - 1];
    return word;
}

struct needs play(const struct shape *shape, const uint8_t *list, size_t count)
{
    static uint8_t stack[MANY_CELLS];
    struct needs needs = { 1, 0 };
    size_t depth = 1;
    stack[0] = (uint8_t)(DESK_NONTERMINAL + shape->start);
    for (size_t i = 0; i < count && depth > 0 && depth < MANY_CELLS - DESK_MOST_SYMBOLS; i++) {
        if (list[i] >= shape->productions || stack[depth - 1] != DESK_NONTERMINAL + shape->production[list[i]].left)
            break;
        const struct production *production = &shape->production[list[i]];
        depth--;
        for (size_t k = production->count; k > 0; k--)
            stack[depth++] = production->right[k - 1];
        needs.depth = depth > needs.depth ? depth : needs.depth;
        for (; depth > 0 && stack[depth - 1] < DESK_NONTERMINAL; depth--)
            needs.tokens++;
    }
    return needs;
}

void find_run_needs(const struct shape *shape, size_t *list_need, size_t *stack_need)
{
    static uint8_t stack[MANY_CELLS], list[MANY_CELLS];
    uint8_t answer[DESK_ANSWER_SIZE];
    size_t most = chance(is_loop(shape) ? 60 : 97) ? FEW_STEPS : MANY_CELLS;
    uint32_t number = plain_run(in.book, in.book_length, in.table, in.table_length, in.string, in.string_length,
                                stack, most, list, most, answer, sizeof answer);
    uint64_t matched = number == DESK_DONE ? in.string_length : word_at(answer);
    uint64_t steps = word_at(answer + 16);
    *list_need = steps > matched ? (size_t)(steps - matched) : 0;
    *stack_need = play(shape, list, *list_need).depth;
}
