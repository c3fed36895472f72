#include "cases.h"

#include "counts.h"
#include "depths.h"
#include "inputs.h"
#include "laws.h"
#include "lent.h"
#include "needs.h"
#include "plain.h"

#include <stdio.h>
#include <string.h>

enum { MOST_SHOWN = 10 };

static const uint64_t seed = 20240229;

unsigned long differences;
static unsigned long case_number;

/* Prints what a case was, so that it can be looked at; the same case is run again by its number. */
static void show_difference(enum function function, uint32_t number, uint32_t wanted, const char *what)
{
    differences++;
    if (differences > MOST_SHOWN)
        return;
    printf("case %lu: %s: %s differs: number %u, plain %u; book of %zu, table of %zu, string of %zu\n", case_number,
           function_names[function], what, (unsigned)number, (unsigned)wanted, in.book_length, in.table_length,
           in.string_length);
    for (size_t i = 0; i < in.book_length && i < 200; i++)
        printf("%02x%s", in.book[i], i + 1 == in.book_length || i == 199 ? "\n" : " ");
}

static void count_case(enum function function, uint32_t number, const struct lent *answer)
{
    count_number(function, number);
    if (number != DESK_ROOM)
        return;
    bool written = memcmp(answer->wanted + answer->guard, answer->memory + answer->guard, answer->bytes) == 0
                && answer->bytes >= DESK_ANSWER_SIZE;
    count_detail(function, written ? word_at(wanted_bytes(answer) + 8) : 0);
}

/* Compares what the two calls returned and left behind, takes the buffers back and counts the case. */
static void compare(enum function function, uint32_t number, uint32_t wanted, struct lent *lent, size_t count)
{
    const char *what = number == wanted ? NULL : "number";
    static const char *const buffers[] = { "answer", "buffer 1", "buffer 2", "buffer 3" };
    for (size_t i = 0; i < count && !what; i++)
        if (!lent_holds(&lent[i]))
            what = buffers[i];
    if (!laid_holds(BOOK_SLOT, in.book, in.book_length) || !laid_holds(TABLE_SLOT, in.table, in.table_length)
        || !laid_holds(STRING_SLOT, in.string, in.string_length))
        what = "an input";
    if (what)
        show_difference(function, number, wanted, what);
    count_case(function, wanted, &lent[0]);
    for (size_t i = 0; i < count; i++)
        take_back(&lent[i]);
}

static const uint8_t *book(void)
{
    return lay(BOOK_SLOT, in.book, in.book_length);
}

static const uint8_t *table(void)
{
    return lay(TABLE_SLOT, in.table, in.table_length);
}

static const uint8_t *string(void)
{
    return lay(STRING_SLOT, in.string, in.string_length);
}

static void compare_runs(void)
{
    size_t list_need, stack_need;
    make_table(&in.shape);
    make_tokens(&in.shape);
    spoil_book();
    find_run_needs(&in.shape, &list_need, &stack_need);
    size_t stack_size = size_near(stack_need), list_size = size_near(list_need), size = answer_size();
    struct lent lent[] = { lend_bytes(size), lend_bytes(stack_size), lend_bytes(list_size) };
    uint32_t wanted = plain_run(book(), in.book_length, table(), in.table_length, string(), in.string_length,
                                wanted_bytes(&lent[1]), stack_size, wanted_bytes(&lent[2]), list_size,
                                wanted_bytes(&lent[0]), size);
    uint32_t number = desk_run(book(), in.book_length, table(), in.table_length, string(), in.string_length,
                               lent_bytes(&lent[1]), stack_size, lent_bytes(&lent[2]), list_size,
                               lent_bytes(&lent[0]), size);
    if (!run_depth_is_needed(number, lent_bytes(&lent[0]), lent_bytes(&lent[2]), list_size))
        show_difference(RUN, number, wanted, "depth");
    compare(RUN, number, wanted, lent, 3);
    if (!formula_is_enough())
        show_difference(RUN, number, wanted, "room by formula");
}

static void compare_expansions(void)
{
    make_list(&in.shape);
    spoil_book();
    struct needs needs = play(&in.shape, in.string, in.string_length);
    size_t stack_size = size_near(needs.depth), tokens_size = size_near(needs.tokens), size = answer_size();
    struct lent lent[] = { lend_bytes(size), lend_bytes(stack_size), lend_bytes(tokens_size) };
    uint32_t wanted = plain_expand(book(), in.book_length, string(), in.string_length,
                                   wanted_bytes(&lent[1]), stack_size, wanted_bytes(&lent[2]), tokens_size,
                                   wanted_bytes(&lent[0]), size);
    uint32_t number = desk_expand(book(), in.book_length, string(), in.string_length,
                                  lent_bytes(&lent[1]), stack_size, lent_bytes(&lent[2]), tokens_size,
                                  lent_bytes(&lent[0]), size);
    if (!expand_depth_is_needed(number, lent_bytes(&lent[0]), lent_bytes(&lent[2]), tokens_size))
        show_difference(EXPAND, number, wanted, "depth");
    compare(EXPAND, number, wanted, lent, 3);
}

static void compare_judgements(void)
{
    spoil_book();
    if (chance(40))
        spoil_book();
    size_t size = answer_size();
    struct lent lent[] = { lend_bytes(size) };
    uint32_t wanted = plain_judge(book(), in.book_length, wanted_bytes(&lent[0]), size);
    uint32_t number = desk_judge(book(), in.book_length, lent_bytes(&lent[0]), size);
    compare(JUDGE, number, wanted, lent, 1);
}

static void compare_sets(void)
{
    spoil_book();
    size_t firsts = set_cells(), follows = set_cells(), size = answer_size();
    struct lent lent[] = { lend_bytes(size), lend_words(firsts), lend_words(follows) };
    uint32_t wanted = plain_sets(book(), in.book_length, wanted_words(&lent[1]), firsts,
                                 wanted_words(&lent[2]), follows, wanted_bytes(&lent[0]), size);
    uint32_t number = desk_sets(book(), in.book_length, lent_words(&lent[1]), firsts,
                                lent_words(&lent[2]), follows, lent_bytes(&lent[0]), size);
    compare(SETS, number, wanted, lent, 3);
}

static void compare_builds(void)
{
    spoil_book();
    size_t firsts = set_cells(), follows = set_cells(), size = answer_size();
    size_t cells = chance(30) ? DESK_MOST_TABLE_CELLS
                              : smaller(size_near(in.shape.nonterminals * (in.shape.terminals + 1)), 5000);
    struct lent lent[] = { lend_bytes(size), lend_words(firsts), lend_words(follows), lend_bytes(cells) };
    uint32_t wanted = plain_build(book(), in.book_length, wanted_words(&lent[1]), firsts, wanted_words(&lent[2]),
                                  follows, wanted_bytes(&lent[3]), cells, wanted_bytes(&lent[0]), size);
    uint32_t number = desk_build(book(), in.book_length, lent_words(&lent[1]), firsts, lent_words(&lent[2]),
                                 follows, lent_bytes(&lent[3]), cells, lent_bytes(&lent[0]), size);
    compare(BUILD, number, wanted, lent, 4);
}

static void compare_checks(void)
{
    make_table(&in.shape);
    if (chance(40))
        change_cell(&in.shape);
    spoil_book();
    size_t size = answer_size();
    struct lent lent[] = { lend_bytes(size) };
    uint32_t wanted = plain_check_table(book(), in.book_length, table(), in.table_length, wanted_bytes(&lent[0]), size);
    uint32_t number = desk_check_table(book(), in.book_length, table(), in.table_length, lent_bytes(&lent[0]), size);
    compare(CHECK, number, wanted, lent, 1);
    if (!passes_as_built())
        show_difference(CHECK, number, wanted, "check and build");
}

static uint64_t any_production_number(void)
{
    static const uint64_t others[] = { 127, 128, 255, 256, UINT64_C(1) << 32, UINT64_MAX };
    return chance(90) ? pick(0, in.shape.productions) : others[pick(0, 5)];
}

static void compare_lookaheads(void)
{
    spoil_book();
    uint64_t production = any_production_number();
    size_t cells = chance(85) ? 1 : pick(0, 3), counts = chance(85) ? 1 : pick(0, 3), size = answer_size();
    struct lent lent[] = { lend_bytes(size), lend_words(cells), lend_words(counts) };
    uint32_t wanted = plain_lookahead(book(), in.book_length, production, wanted_words(&lent[1]), cells,
                                      wanted_words(&lent[2]), counts, wanted_bytes(&lent[0]), size);
    uint32_t number = desk_lookahead(book(), in.book_length, production, lent_words(&lent[1]), cells,
                                     lent_words(&lent[2]), counts, lent_bytes(&lent[0]), size);
    compare(LOOKAHEAD, number, wanted, lent, 3);
}

static void compare_firsts_of(void)
{
    spoil_book();
    make_symbols(&in.shape);
    size_t cells = chance(85) ? 1 : pick(0, 3), counts = chance(85) ? 1 : pick(0, 3), size = answer_size();
    struct lent lent[] = { lend_bytes(size), lend_words(cells), lend_words(counts) };
    uint32_t wanted = plain_first_of(book(), in.book_length, string(), in.string_length, wanted_words(&lent[1]),
                                     cells, wanted_words(&lent[2]), counts, wanted_bytes(&lent[0]), size);
    uint32_t number = desk_first_of(book(), in.book_length, string(), in.string_length, lent_words(&lent[1]),
                                    cells, lent_words(&lent[2]), counts, lent_bytes(&lent[0]), size);
    compare(FIRST_OF, number, wanted, lent, 3);
    if (!parts_join())
        show_difference(FIRST_OF, number, wanted, "first of two parts");
    if (!all_counted())
        show_difference(FIRST_OF, number, wanted, "all symbols counted");
}

void compare_case(unsigned long number)
{
    case_number = number;
    seed_random(seed * UINT64_C(1000003) + case_number);
    empty_is_null = chance(50);
    make_book();
    size_t kind = pick(0, 99);
    if (kind < 60)
        make_derivation(&in.shape);
    if (kind < 40)
        compare_runs();
    else if (kind < 60)
        compare_expansions();
    else if (kind < 68)
        compare_judgements();
    else if (kind < 76)
        compare_sets();
    else if (kind < 83)
        compare_builds();
    else if (kind < 88)
        compare_checks();
    else if (kind < 94)
        compare_lookaheads();
    else
        compare_firsts_of();
}

unsigned print_counts(void)
{
    return print_numbers() + print_laws() + print_depths();
}
