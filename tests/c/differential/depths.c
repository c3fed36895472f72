#include "depths.h"

#include "inputs.h"
#include "needs.h"

#include <stdio.h>
#include <string.h>

/* How often a depth was asked for. */
static struct {
    const char *call;
    unsigned long met;
} asked[] = {
    { "depth of a run that is done", 0 },
    { "depth of a syntax stop", 0 },
    { "depth of an expansion", 0 },
    { "depth of a list that misfits", 0 },
};

static uint8_t stack[MANY_CELLS], output[MANY_CELLS];

static uint32_t run_with(size_t stack_size, size_t size, uint8_t *answer)
{
    return desk_run(in.book, in.book_length, in.table, in.table_length, in.string, in.string_length, stack, stack_size,
                    output, size, answer, DESK_ANSWER_SIZE);
}

static uint32_t expand_with(size_t stack_size, size_t size, uint8_t *answer)
{
    return desk_expand(in.book, in.book_length, in.string, in.string_length, stack, stack_size, output, size, answer,
                       DESK_ANSWER_SIZE);
}

/* With a stack of just the depth the call answers and writes the same, and with a cell less it lacks stack. */
static bool depth_is_needed(uint32_t call(size_t stack_size, size_t size, uint8_t *answer), uint32_t number,
                            const uint8_t *answer, const uint8_t *written, size_t count, size_t size)
{
    uint8_t other[DESK_ANSWER_SIZE];
    uint64_t depth = word_at(answer + 32);
    if (depth == 0 || depth > DESK_MOST_CELLS)
        return false;
    bool same = call((size_t)depth, size, other) == number && memcmp(other, answer, sizeof other) == 0
             && (count == 0 || memcmp(output, written, count) == 0);
    return same && call((size_t)depth - 1, size, other) == DESK_ROOM && word_at(other + 8) == DESK_ROOM_STACK;
}

bool run_depth_is_needed(uint32_t number, const uint8_t *answer, const uint8_t *list, size_t list_size)
{
    if (number != DESK_DONE && number != DESK_SYNTAX)
        return true;
    asked[number == DESK_DONE ? 0 : 1].met++;
    uint64_t matched = number == DESK_DONE ? in.string_length : word_at(answer);
    return depth_is_needed(run_with, number, answer, list, (size_t)(word_at(answer + 16) - matched), list_size);
}

bool expand_depth_is_needed(uint32_t number, const uint8_t *answer, const uint8_t *tokens, size_t tokens_size)
{
    if (number != DESK_DONE && number != DESK_PRODUCTION)
        return true;
    asked[number == DESK_DONE ? 2 : 3].met++;
    uint64_t used = number == DESK_DONE ? in.string_length : word_at(answer);
    return depth_is_needed(expand_with, number, answer, tokens, (size_t)(word_at(answer + 16) - used), tokens_size);
}

unsigned print_depths(void)
{
    unsigned missing = 0;
    for (size_t i = 0; i < sizeof asked / sizeof asked[0]; i++) {
        printf("%-30s%9lu\n", asked[i].call, asked[i].met);
        missing += asked[i].met == 0;
    }
    return missing;
}
