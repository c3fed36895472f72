#include "plain.h"

#include "plain/book.h"
#include "plain/check.h"
#include "plain/profile.h"
#include "plain/sets.h"
#include "plain/steps.h"

/* Whether steps can begin, which takes one cell for the start symbol. */
static bool stack_has_cell(size_t stack_len, struct answer *answer)
{
    return stack_len > 0 || refuse(answer, ROOM, 0, STACK_DETAIL);
}

uint32_t plain_run(const uint8_t *book, size_t book_len, const uint8_t *table, size_t table_len,
                   const uint8_t *tokens, size_t tokens_len, uint8_t *stack, size_t stack_len,
                   uint8_t *list, size_t list_len, uint8_t *answer, size_t answer_len)
{
    struct grammar grammar;
    struct answer result = { 0 };
    if (answer_len < ANSWER_SIZE)
        return ROOM;
    if (judge(book, book_len, &grammar, &result)
        && table_fits(&grammar, table, table_len, &result)
        && tokens_fit(&grammar, tokens, tokens_len, &result)
        && stack_has_cell(stack_len, &result)) {
        run_steps(&grammar, table, tokens, tokens_len, stack, smaller(stack_len, MOST_CELLS),
                  list, smaller(list_len, MOST_CELLS), &result);
        memset(stack, 0, stack_len);
    }
    return give(&result, answer);
}

uint32_t plain_expand(const uint8_t *book, size_t book_len, const uint8_t *list, size_t list_len,
                      uint8_t *stack, size_t stack_len, uint8_t *tokens, size_t tokens_len,
                      uint8_t *answer, size_t answer_len)
{
    struct grammar grammar;
    struct answer result = { 0 };
    if (answer_len < ANSWER_SIZE)
        return ROOM;
    if (judge(book, book_len, &grammar, &result)
        && (list_len <= MOST_CELLS || refuse(&result, LIMIT, MOST_CELLS, NO_DETAIL))
        && stack_has_cell(stack_len, &result)) {
        expand_steps(&grammar, list, list_len, stack, smaller(stack_len, MOST_CELLS),
                     tokens, smaller(tokens_len, MOST_CELLS), &result);
        memset(stack, 0, stack_len);
    }
    return give(&result, answer);
}

uint32_t plain_judge(const uint8_t *book, size_t book_len, uint8_t *answer, size_t answer_len)
{
    struct grammar grammar;
    struct answer result = { 0 };
    if (answer_len < ANSWER_SIZE)
        return ROOM;
    judge(book, book_len, &grammar, &result);
    return give(&result, answer);
}

static bool sets_have_room(const struct grammar *grammar, size_t first_len, size_t follow_len, struct answer *answer)
{
    size_t cells = grammar->nonterminals;
    if (first_len < cells)
        return refuse(answer, ROOM, cells, FIRST_DETAIL);
    if (follow_len < cells)
        return refuse(answer, ROOM, cells, FOLLOW_DETAIL);
    return true;
}

uint32_t plain_sets(const uint8_t *book, size_t book_len, uint64_t *first, size_t first_len,
                    uint64_t *follow, size_t follow_len, uint8_t *answer, size_t answer_len)
{
    struct grammar grammar;
    struct answer result = { 0 };
    if (answer_len < ANSWER_SIZE)
        return ROOM;
    if (judge(book, book_len, &grammar, &result) && sets_have_room(&grammar, first_len, follow_len, &result)) {
        find_first(&grammar, first);
        find_follow(&grammar, first, follow);
    }
    return give(&result, answer);
}

uint32_t plain_build(const uint8_t *book, size_t book_len, uint64_t *first, size_t first_len,
                     uint64_t *follow, size_t follow_len, uint8_t *table, size_t table_len,
                     uint8_t *answer, size_t answer_len)
{
    struct grammar grammar;
    struct answer result = { 0 };
    if (answer_len < ANSWER_SIZE)
        return ROOM;
    if (judge(book, book_len, &grammar, &result) && sets_have_room(&grammar, first_len, follow_len, &result)) {
        if (table_len < table_size(&grammar))
            refuse(&result, ROOM, table_size(&grammar), TABLE_DETAIL);
        else
            build(&grammar, first, follow, table, &result);
    }
    return give(&result, answer);
}

uint32_t plain_check_table(const uint8_t *book, size_t book_len, const uint8_t *table, size_t table_len,
                           uint8_t *answer, size_t answer_len)
{
    struct grammar grammar;
    struct answer result = { 0 };
    if (answer_len < ANSWER_SIZE)
        return ROOM;
    if (judge(book, book_len, &grammar, &result) && table_fits(&grammar, table, table_len, &result))
        table_is_right(&grammar, table, &result);
    return give(&result, answer);
}

uint32_t plain_lookahead(const uint8_t *book, size_t book_len, uint64_t production,
                         uint64_t *set, size_t set_len, uint64_t *count, size_t count_len,
                         uint8_t *answer, size_t answer_len)
{
    struct grammar grammar;
    struct answer result = { 0 };
    if (answer_len < ANSWER_SIZE || set_len < 1 || count_len < 1)
        return ROOM;
    set[0] = 0;
    count[0] = 0;
    if (judge(book, book_len, &grammar, &result)
        && (production < grammar.productions || refuse(&result, PRODUCTION, production, NO_DETAIL))) {
        uint64_t first[MOST_NONTERMINALS], follow[MOST_NONTERMINALS];
        find_first(&grammar, first);
        find_follow(&grammar, first, follow);
        set[0] = lookahead(&grammar, first, follow, (size_t)production);
        count[0] = leading_vanishing(first, grammar.right[production], grammar.length[production]);
    }
    return give(&result, answer);
}

static bool symbols_fit(const struct grammar *grammar, const uint8_t *symbols, size_t length, struct answer *answer)
{
    if (length > MOST_LENGTH)
        return refuse(answer, LIMIT, MOST_LENGTH, NO_DETAIL);
    for (size_t i = 0; i < length; i++)
        if (!is_symbol(grammar, symbols[i]))
            return refuse(answer, SYMBOL, i, NO_DETAIL);
    return true;
}

uint32_t plain_first_of(const uint8_t *book, size_t book_len, const uint8_t *symbols, size_t symbols_len,
                        uint64_t *set, size_t set_len, uint64_t *count, size_t count_len,
                        uint8_t *answer, size_t answer_len)
{
    struct grammar grammar;
    struct answer result = { 0 };
    if (answer_len < ANSWER_SIZE || set_len < 1 || count_len < 1)
        return ROOM;
    set[0] = 0;
    count[0] = 0;
    if (judge(book, book_len, &grammar, &result) && symbols_fit(&grammar, symbols, symbols_len, &result)) {
        uint64_t first[MOST_NONTERMINALS];
        find_first(&grammar, first);
        set[0] = first_of_string(first, symbols, symbols_len);
        count[0] = leading_vanishing(first, symbols, symbols_len);
    }
    return give(&result, answer);
}

uint32_t plain_profile(const uint8_t *book, size_t book_len, uint8_t *answer, size_t answer_len)
{
    struct grammar grammar;
    struct answer result = { 0 };
    if (answer_len < ANSWER_SIZE)
        return ROOM;
    if (judge(book, book_len, &grammar, &result))
        is_plain(&grammar, &result);
    return give(&result, answer);
}

uint32_t plain_profile_run(const uint8_t *book, size_t book_len, const uint8_t *tokens, size_t tokens_len,
                           uint8_t *stack, size_t stack_len, uint8_t *list, size_t list_len,
                           uint8_t *answer, size_t answer_len)
{
    struct grammar grammar;
    struct answer result = { 0 };
    if (answer_len < ANSWER_SIZE)
        return ROOM;
    if (judge(book, book_len, &grammar, &result)
        && is_plain(&grammar, &result)
        && tokens_fit(&grammar, tokens, tokens_len, &result)
        && stack_has_cell(stack_len, &result)) {
        profile_steps(&grammar, tokens, tokens_len, stack, smaller(stack_len, MOST_CELLS),
                      list, smaller(list_len, MOST_CELLS), &result);
        memset(stack, 0, stack_len);
    }
    return give(&result, answer);
}
