#include "cases.h"

#include "differential/needs.h"
#include "lent.h"
#include "plain.h"

#include <stdio.h>
#include <string.h>

/* Random cases of the plain profile: grammars that are plain most of the time, and spoiled ones. */

enum { MOST_SHOWN = 10, NUMBERS = 22, DETAILS = 3 };
enum call { PLAIN, PLAIN_RUN, CALLS };

static const uint64_t seed = 20240614;

unsigned long differences;
static unsigned long case_number;

static const char *const names[CALLS] = { "plain", "plain_run" };
static const unsigned long possible[CALLS] = { 0x2000ff, 0x200cff };
static unsigned long met[CALLS][NUMBERS], details[DETAILS], compared;

static void show_difference(enum call call, uint32_t number, uint32_t wanted, const char *what)
{
    if (differences++ < MOST_SHOWN)
        printf("case %lu: %s: %s differs: number %u, wanted %u; book of %zu, string of %zu\n", case_number,
               names[call], what, (unsigned)number, (unsigned)wanted, in.book_length, in.string_length);
}

/* Makes every right side start with a token that no other of its left side starts with, and leaves out productions
   for which there is none. */
static void make_plain(struct shape *shape)
{
    uint8_t fresh[DESK_MOST_NONTERMINALS] = { 0 };
    size_t kept = 0;
    for (size_t p = 0; p < shape->productions; p++) {
        struct production production = shape->production[p];
        if (fresh[production.left] == shape->terminals)
            continue;
        if (production.count < DESK_MOST_SYMBOLS)
            memmove(production.right + 1, production.right, production.count++);
        production.right[0] = fresh[production.left]++;
        shape->production[kept++] = production;
    }
    shape->productions = kept;
}

/* Makes one production break the profile, or leaves it where it cannot. */
static void spoil_profile(struct shape *shape)
{
    struct production *production = &shape->production[pick(0, shape->productions - 1)];
    const struct production *other = &shape->production[pick(0, shape->productions - 1)];
    size_t kind = pick(0, 2);
    if (kind == 0)
        production->count = 0;
    else if (production->count > 0)
        production->right[0] = kind == 1 ? any_symbol(shape) : other->right[0];
}

static const uint8_t *book(void)
{
    return lay(BOOK_SLOT, in.book, in.book_length);
}

static const uint8_t *string(void)
{
    return lay(STRING_SLOT, in.string, in.string_length);
}

/* Compares what the two calls returned and left behind, and takes the buffers back. */
static void compare(enum call call, uint32_t number, uint32_t wanted, struct lent *lent, size_t count)
{
    static const char *const buffers[] = { "answer", "stack", "list" };
    if (number != wanted)
        show_difference(call, number, wanted, "number");
    for (size_t i = 0; i < count; i++)
        if (!lent_holds(&lent[i]))
            show_difference(call, number, wanted, buffers[i]);
    if (!laid_holds(BOOK_SLOT, in.book, in.book_length) || !laid_holds(STRING_SLOT, in.string, in.string_length))
        show_difference(call, number, wanted, "an input");
    for (size_t i = 0; i < count; i++)
        take_back(&lent[i]);
}

static void compare_tests(void)
{
    size_t size = answer_size();
    struct lent lent[] = { lend_bytes(size) };
    uint32_t wanted = plain_profile(book(), in.book_length, wanted_bytes(&lent[0]), size);
    uint32_t number = desk_plain(book(), in.book_length, lent_bytes(&lent[0]), size);
    met[PLAIN][wanted]++;
    compare(PLAIN, number, wanted, lent, 1);
}

/* How much room the run takes, found by one with room for all. */
static void find_needs(size_t *stack_need, size_t *list_need)
{
    static uint8_t stack[DESK_MOST_CELLS], list[DESK_MOST_CELLS];
    uint8_t answer[DESK_ANSWER_SIZE];
    uint32_t number = plain_profile_run(in.book, in.book_length, in.string, in.string_length, stack, sizeof stack,
                                        list, sizeof list, answer, sizeof answer);
    uint64_t matched = number == DESK_DONE ? in.string_length : word_at(answer), steps = word_at(answer + 16);
    *list_need = steps > matched ? (size_t)(steps - matched) : 0;
    *stack_need = (size_t)word_at(answer + 32);
}

/* Where the book is plain, the run on the table that is built of it gives the same answer, stack and list. */
static void compare_with_table(size_t stack_size, size_t list_size)
{
    static uint8_t table[DESK_MOST_TABLE_CELLS];
    uint64_t first[64], follow[64];
    uint8_t told[DESK_ANSWER_SIZE];
    if (desk_plain(in.book, in.book_length, told, sizeof told) != DESK_DONE)
        return;
    if (desk_build(in.book, in.book_length, first, 64, follow, 64, table, sizeof table, told, sizeof told) != DESK_DONE)
        show_difference(PLAIN_RUN, DESK_CONFLICT, DESK_DONE, "building");
    struct lent lent[] = { lend_bytes(DESK_ANSWER_SIZE), lend_bytes(stack_size), lend_bytes(list_size) };
    uint32_t wanted = desk_run(book(), in.book_length, table, DESK_TABLE_CELLS(in.book), string(), in.string_length,
                               wanted_bytes(&lent[1]), stack_size, wanted_bytes(&lent[2]), list_size,
                               wanted_bytes(&lent[0]), DESK_ANSWER_SIZE);
    uint32_t number = desk_plain_run(book(), in.book_length, string(), in.string_length, lent_bytes(&lent[1]), stack_size,
                                     lent_bytes(&lent[2]), list_size, lent_bytes(&lent[0]), DESK_ANSWER_SIZE);
    compared++;
    compare(PLAIN_RUN, number, wanted, lent, 3);
}

static void compare_runs(void)
{
    size_t stack_need, list_need;
    find_needs(&stack_need, &list_need);
    size_t stack_size = size_near(stack_need), list_size = size_near(list_need), size = answer_size();
    struct lent lent[] = { lend_bytes(size), lend_bytes(stack_size), lend_bytes(list_size) };
    uint32_t wanted = plain_profile_run(book(), in.book_length, string(), in.string_length, wanted_bytes(&lent[1]),
                                        stack_size, wanted_bytes(&lent[2]), list_size, wanted_bytes(&lent[0]), size);
    uint32_t number = desk_plain_run(book(), in.book_length, string(), in.string_length, lent_bytes(&lent[1]), stack_size,
                                     lent_bytes(&lent[2]), list_size, lent_bytes(&lent[0]), size);
    met[PLAIN_RUN][wanted]++;
    if (wanted == DESK_ROOM)
        details[size < DESK_ANSWER_SIZE ? 0 : word_at(wanted_bytes(&lent[0]) + 8)]++;
    compare(PLAIN_RUN, number, wanted, lent, 3);
    compare_with_table(stack_size, list_size);
}

/* With a list cell for each token and 1 + 15 stack cells a token no run is refused for room. */
static void check_room(void)
{
    static uint8_t stack[DESK_STACK_ROOM(1, MANY_CELLS)], list[DESK_LIST_ROOM(1, MANY_CELLS)];
    uint8_t answer[DESK_ANSWER_SIZE];
    uint32_t number = desk_plain_run(in.book, in.book_length, in.string, in.string_length,
                                     stack, DESK_STACK_ROOM(1, in.string_length),
                                     list, DESK_LIST_ROOM(1, in.string_length), answer, sizeof answer);
    if (number == DESK_ROOM)
        show_difference(PLAIN_RUN, number, DESK_DONE, "room by formula");
}

void compare_case(unsigned long number)
{
    case_number = number;
    seed_random(seed * UINT64_C(1000003) + case_number);
    empty_is_null = chance(50);
    make_book();
    make_plain(&in.shape);
    if (chance(20))
        spoil_profile(&in.shape);
    write_book(&in.shape);
    bool tests = chance(20);
    if (!tests) {
        make_derivation(&in.shape);
        make_tokens(&in.shape);
    }
    spoil_book();
    if (tests) {
        compare_tests();
    } else {
        compare_runs();
        check_room();
    }
}

unsigned print_counts(void)
{
    unsigned missing = 0;
    for (size_t call = 0; call < CALLS; call++) {
        printf("%-10s", names[call]);
        for (size_t number = 0; number < NUMBERS; number++)
            if (possible[call] >> number & 1) {
                printf(" %zu: %lu", number, met[call][number]);
                missing += met[call][number] == 0;
            }
        printf("\n");
    }
    printf("detail     0: %lu 1: %lu 2: %lu\non the built table: %lu\n", details[0], details[1], details[2], compared);
    for (size_t detail = 0; detail < DETAILS; detail++)
        missing += details[detail] == 0;
    return missing + (compared == 0);
}
