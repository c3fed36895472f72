#include "laws.h"

#include "inputs.h"
#include "plain.h"

#include <stdio.h>
#include <string.h>

/* How often each law was met. */
static struct {
    const char *law;
    unsigned long met;
} laws[] = {
    { "room by formula, derived", 0 },
    { "room by formula, not derived", 0 },
    { "first of two parts", 0 },
    { "all symbols counted", 0 },
    { "not all symbols counted", 0 },
    { "a table passed as built", 0 },
    { "a table not passed nor built", 0 },
};

/* Whether the book is right, its table was built without conflict, and the case's table is that one. */
static bool table_is_built(void)
{
    static uint8_t table[DESK_MOST_TABLE_CELLS];
    uint64_t first[64], follow[64];
    uint8_t answer[DESK_ANSWER_SIZE];
    return plain_build(in.book, in.book_length, first, 64, follow, 64, table, sizeof table, answer, sizeof answer)
               == DESK_DONE
        && in.table_length == DESK_TABLE_CELLS(in.book) && memcmp(in.table, table, in.table_length) == 0;
}

/* Whether no right side of a right book is empty. */
static bool none_empty(void)
{
    for (size_t at = 6; at < in.book_length; at += 4u + in.book[at + 3])
        if (in.book[at + 3] == 0)
            return false;
    return true;
}

static bool tokens_are_known(void)
{
    for (size_t i = 0; i < in.string_length; i++)
        if (in.string[i] >= in.book[2])
            return false;
    return in.string_length <= DESK_MOST_TOKENS;
}

bool formula_is_enough(void)
{
    static uint8_t stack[DESK_MOST_CELLS], list[DESK_MOST_CELLS];
    uint8_t answer[DESK_ANSWER_SIZE];
    if (!table_is_built() || !none_empty() || !tokens_are_known())
        return true;
    size_t list_size = DESK_LIST_ROOM(in.book[3], in.string_length);
    size_t stack_size = DESK_STACK_ROOM(in.book[3], in.string_length);
    if (list_size > DESK_MOST_CELLS || stack_size > DESK_MOST_CELLS)
        return true;
    uint32_t number = desk_run(in.book, in.book_length, in.table, in.table_length, in.string, in.string_length,
                               stack, stack_size, list, list_size, answer, sizeof answer);
    laws[number == DESK_DONE ? 0 : 1].met++;
    return number == DESK_DONE || number == DESK_SYNTAX;
}

/* FIRST of a part of the string and how many of its symbols are counted, or false where it is refused. */
static bool first_of_part(size_t from, size_t to, uint64_t *set, uint64_t *count)
{
    uint8_t answer[DESK_ANSWER_SIZE];
    return desk_first_of(in.book, in.book_length, in.string + from, to - from, set, 1, count, 1, answer, sizeof answer)
        == DESK_DONE;
}

bool parts_join(void)
{
    uint64_t whole, left, right, all, before, behind;
    if (in.string_length > DESK_MOST_SYMBOLS)
        return true;
    size_t cut = pick(0, in.string_length);
    bool parts = first_of_part(0, cut, &left, &before) && first_of_part(cut, in.string_length, &right, &behind);
    if (!first_of_part(0, in.string_length, &whole, &all))
        return !parts;
    laws[2].met++;
    return parts && whole == ((left & ~DESK_EMPTY_STRING) | (left & DESK_EMPTY_STRING ? right : 0))
        && all == (before < cut ? before : before + behind);
}

bool all_counted(void)
{
    uint64_t set, count;
    if (!first_of_part(0, in.string_length, &set, &count))
        return true;
    bool vanishes = (set & DESK_EMPTY_STRING) != 0;
    laws[vanishes ? 3 : 4].met++;
    return vanishes == (count == in.string_length);
}

bool passes_as_built(void)
{
    uint8_t answer[DESK_ANSWER_SIZE];
    bool passed = desk_check_table(in.book, in.book_length, in.table, in.table_length, answer, sizeof answer)
               == DESK_DONE;
    laws[passed ? 5 : 6].met++;
    return passed == table_is_built();
}

unsigned print_laws(void)
{
    unsigned missing = 0;
    for (size_t i = 0; i < sizeof laws / sizeof laws[0]; i++) {
        printf("%-30s%9lu\n", laws[i].law, laws[i].met);
        missing += laws[i].met == 0;
    }
    return missing;
}
