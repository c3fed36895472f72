#include "cases.h"

#include "desk.h"
#include "differential/inputs.h"
#include "inputs.h"
#include "lent.h"
#include "plain_sheets.h"

#include <stdio.h>
#include <string.h>

enum { MOST_SHOWN = 10, NUMBERS = 14 };
enum function { WRITE, READ, FUNCTIONS };

static const uint64_t seed = 20260301;
static const char *const names[FUNCTIONS] = { "write", "read" };
static const unsigned possible[FUNCTIONS] = { 0x00bf, 0x20bb };

unsigned long differences;
static unsigned long case_number, met[FUNCTIONS][NUMBERS], trips;

static void show_difference(enum function function, uint32_t number, uint32_t wanted, const char *what)
{
    differences++;
    if (differences <= MOST_SHOWN)
        printf("case %lu: %s: %s differs: number %u, plain %u; book of %zu, sheet of %zu bytes\n", case_number,
               names[function], what, (unsigned)number, (unsigned)wanted, in.book_length, text.length);
}

static size_t answer_size(void)
{
    if (chance(92))
        return DESK_ANSWER_SIZE;
    return chance(50) ? pick(0, DESK_ANSWER_SIZE - 1) : pick(DESK_ANSWER_SIZE + 1, DESK_ANSWER_SIZE + 16);
}

static uint64_t word_at(const uint8_t *bytes)
{
    uint64_t word = 0;
    for (size_t i = 8; i > 0; i--)
        word = word << 8 | bytes[i - 1];
    return word;
}

/* Room: what is needed, one less, one more, none, or any. */
static size_t near(size_t need)
{
    switch (pick(0, 9)) {
    case 0:
        return need > 0 ? need - 1 : 0;
    case 1:
        return need + pick(1, 9);
    case 2:
        return 0;
    case 3:
        return pick(0, need);
    default:
        return need;
    }
}

/* Compares what the two calls returned and left behind, takes the buffers back and counts the case. */
static void compare(enum function function, uint32_t number, uint32_t wanted, struct lent *answer, struct lent *lent)
{
    const char *what = number != wanted ? "number" : NULL;
    if (!what && !lent_holds(answer))
        what = "answer";
    if (!what && !lent_holds(lent))
        what = "buffer";
    if (what)
        show_difference(function, number, wanted, what);
    met[function][wanted]++;
    take_back(answer);
    take_back(lent);
}

static void compare_write(void)
{
    uint8_t told[DESK_ANSWER_SIZE], sheet[DESK_MOST_SHEET_BYTES];
    spoil_book();
    plain_write_sheet(in.book, in.book_length, sheet, sizeof sheet, told, sizeof told);
    size_t room = near((size_t)word_at(told + 16)), size = answer_size();
    struct lent answer = lend_bytes(size), lent = lend_bytes(room);
    const uint8_t *book = lay(BOOK_SLOT, in.book, in.book_length);
    uint32_t wanted = plain_write_sheet(book, in.book_length, wanted_bytes(&lent), room, wanted_bytes(&answer), size);
    uint32_t number = desk_write_sheet(book, in.book_length, lent_bytes(&lent), room, lent_bytes(&answer), size);
    compare(WRITE, number, wanted, &answer, &lent);
}

static void compare_read(void)
{
    uint8_t told[DESK_ANSWER_SIZE], book[DESK_MOST_BOOK_BYTES];
    make_text();
    plain_read_sheet(text.bytes, text.length, book, sizeof book, told, sizeof told);
    size_t room = near((size_t)word_at(told + 16)), size = answer_size();
    struct lent answer = lend_bytes(size), lent = lend_bytes(room);
    const uint8_t *sheet = lay(STRING_SLOT, text.bytes, text.length);
    uint32_t wanted = plain_read_sheet(sheet, text.length, wanted_bytes(&lent), room, wanted_bytes(&answer), size);
    uint32_t number = desk_read_sheet(sheet, text.length, lent_bytes(&lent), room, lent_bytes(&answer), size);
    compare(READ, number, wanted, &answer, &lent);
}

/* Over and back: a book that reads, and its sheet, give the same bytes. */
static void compare_trip(void)
{
    uint8_t told[DESK_ANSWER_SIZE], sheet[DESK_MOST_SHEET_BYTES], book[DESK_MOST_BOOK_BYTES];
    if (desk_write_sheet(in.book, in.book_length, sheet, sizeof sheet, told, sizeof told) != DESK_DONE)
        return;
    trips++;
    size_t size = (size_t)word_at(told + 16);
    uint32_t number = desk_read_sheet(sheet, size, book, sizeof book, told, sizeof told);
    if (number != DESK_DONE || word_at(told + 16) != in.book_length || memcmp(book, in.book, in.book_length) != 0)
        show_difference(READ, number, DESK_DONE, "the way back");
}

void compare_case(unsigned long number)
{
    case_number = number;
    seed_random(seed * UINT64_C(1000003) + case_number);
    empty_is_null = chance(50);
    make_book();
    text.length = 0;
    size_t kind = pick(0, 99);
    if (kind < 60)
        compare_read();
    else if (kind < 90)
        compare_write();
    else
        compare_trip();
}

unsigned print_counts(void)
{
    unsigned missing = 0;
    for (size_t function = 0; function < FUNCTIONS; function++) {
        printf("%-6s", names[function]);
        for (size_t number = 0; number < NUMBERS; number++)
            if (possible[function] >> number & 1) {
                printf("%4zu:%7lu", number, met[function][number]);
                missing += met[function][number] == 0;
            }
        printf("\n");
    }
    printf("over and back: %lu\n", trips);
    return missing + (trips == 0);
}
