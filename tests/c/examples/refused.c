#include "examples.h"

#include "calls.h"

#include <string.h>

/* I: taking out unreachable symbols first would let nonterminal 1 pass. */
static const uint8_t sterile[] = {
    'G', 'R', 2, 3, 0, 4,
    'P', 'R', 0, 1, 0,
    'P', 'R', 0, 2, N(1), N(2),
    'P', 'R', 1, 1, 1,
    'P', 'R', 2, 1, N(2),
};

static const uint8_t sterile_start[] = {
    'G', 'R', 1, 2, 1, 2,
    'P', 'R', 0, 1, 0,
    'P', 'R', 1, 2, N(1), N(0),
};

static const uint8_t unreached[] = {
    'G', 'R', 3, 4, 0, 5,
    'P', 'R', 0, 3, 0, N(1), 0,
    'P', 'R', 0, 3, 1, N(2), 1,
    'P', 'R', 1, 1, 0,
    'P', 'R', 1, 1, N(0),
    'P', 'R', 3, 1, 2,
};

/* Ends are found from the first production on, reached nonterminals from the last one on. */
static const uint8_t backwards[] = {
    'G', 'R', 1, 4, 3, 4,
    'P', 'R', 0, 1, 0,
    'P', 'R', 1, 1, N(0),
    'P', 'R', 2, 1, N(1),
    'P', 'R', 3, 1, N(2),
};

/* Checks that all nine functions on books refuse one alike, whatever else is wrong, and change nothing but the answer. */
static void check_refused(const char *name, struct slice book, uint32_t number, uint64_t place)
{
    struct wanted wanted = { number, place, 0, 0, 0 };
    struct grammar bad = { .name = name, .book = book, .table = BYTES(254) };
    struct grammar bare = { .name = name, .book = book };
    check_judge(name, book, wanted);
    check_plain(name, book, wanted);
    check_plain_run(&(struct plain_run_case){ name, book, BYTES(254), 5, 5, wanted, NONE, 0 });
    check_plain_run(&(struct plain_run_case){ name, book, NONE, 0, 0, wanted, NONE, 0 });
    check_run(&(struct run_case){ name, &bad, BYTES(254), 5, 5, wanted, NONE, false });
    check_run(&(struct run_case){ name, &bare, NONE, 0, 0, wanted, NONE, false });
    check_expand(&(struct expand_case){ name, &bad, { zeros, MANY_CELLS }, 5, 5, wanted, NONE, false });
    check_expand(&(struct expand_case){ name, &bare, NONE, 0, 0, wanted, NONE, false });
    check_sets(&(struct sets_case){ &bare, 0, 0, 0, wanted });
    check_sets(&(struct sets_case){ &bare, 64, 64, 0, wanted });
    check_build(&(struct sets_case){ &bare, 0, 0, 0, wanted });
    check_build(&(struct sets_case){ &bare, 64, 64, 4032, wanted });
    check_lookahead(name, book, UINT64_MAX, wanted, 0, 0);
    check_first_of(name, book, (struct slice)BYTES(254), wanted, 0, 0);
    check_first_of(name, book, (struct slice){ zeros, 17 }, wanted, 0, 0);
}

/* Checks every cut of the house book: the missing byte is at its end. */
static void check_cuts(void)
{
    for (size_t length = 0; length < house.book.length; length++)
        check_refused("house cut", (struct slice){ house.book.bytes, length }, DESK_SHORT, length);
}

/* One byte of the house book changed, and what is then refused where. */
static const struct {
    size_t offset;
    uint8_t byte;
    uint32_t number;
    uint64_t place;
} damages[] = {
    { 0, 'g', 2, 0 }, { 1, 'S', 2, 1 }, { 6, 'R', 2, 6 }, { 7, 'P', 2, 7 }, { 35, 0, 2, 35 }, { 36, 255, 2, 36 },
    { 2, 0, 4, 2 }, { 2, 63, 4, 2 }, { 2, 255, 4, 2 }, { 3, 0, 4, 3 }, { 3, 65, 4, 3 }, { 4, 4, 4, 4 },
    { 4, 255, 4, 4 }, { 5, 0, 4, 5 }, { 5, 129, 4, 5 }, { 5, 255, 4, 5 }, { 9, 17, 4, 9 }, { 38, 17, 4, 38 },
    { 38, 255, 4, 38 }, { 8, 4, 5, 8 }, { 37, 4, 5, 37 }, { 37, N(0), 5, 37 }, { 10, 4, 5, 10 }, { 10, 62, 5, 10 },
    { 10, 127, 5, 10 }, { 10, N(4), 5, 10 }, { 10, 255, 5, 10 }, { 34, N(4), 5, 34 }, { 34, 4, 5, 34 },
    { 2, 3, 5, 33 }, { 2, 1, 5, 16 }, { 3, 3, 5, 18 }, { 3, 1, 5, 11 }, { 9, 0, 2, 10 }, { 9, 1, 2, 11 },
    { 9, 3, 5, 12 }, { 9, 16, 5, 12 }, { 38, 1, 1, 39 }, { 38, 16, 1, 39 }, { 5, 7, 1, 39 }, { 5, 128, 1, 39 },
    { 5, 5, 3, 35 }, { 5, 1, 3, 12 }, { 3, 5, 6, 4 }, { 3, 64, 6, 4 }, { 4, 1, 6, 0 }, { 4, 3, 6, 0 },
    { 37, 2, 6, 0 }, { 27, 3, 0, 0 }, { 2, 62, 0, 0 },
};

static void check_damages(void)
{
    for (size_t i = 0; i < COUNT(damages); i++) {
        uint8_t bytes[DESK_MOST_BOOK_BYTES];
        struct slice book = { bytes, house.book.length };
        memcpy(bytes, house.book.bytes, house.book.length);
        bytes[damages[i].offset] = damages[i].byte;
        if (damages[i].number == DESK_DONE)
            check_judge("house changed", book, (struct wanted)DONE);
        else
            check_refused("house damaged", book, damages[i].number, damages[i].place);
    }
}

/* Changes made to the house book one after another, how much of it is then lent, and what is refused where. */
static const struct {
    const char *name;
    size_t offset;
    uint8_t byte;
    size_t length;
    uint32_t number;
    uint64_t place;
} spoilings[] = {
    { "byte behind", 39, 'P', 40, DESK_EXTRA, 39 },
    { "bad beats behind", 10, 4, 40, DESK_SYMBOL, 10 },
    { "bad beats missing", 10, 4, 11, DESK_SYMBOL, 10 },
    { "missing beats bad", 10, 4, 10, DESK_SHORT, 10 },
    { "bad beats missing in a long right side", 9, 16, 11, DESK_SYMBOL, 10 },
    { "missing in a long right side", 9, 16, 10, DESK_SHORT, 10 },
    { "mark first", 7, 'r', 40, DESK_MARK, 7 },
    { "limit first", 5, 200, 40, DESK_LIMIT, 5 },
    { "first limit first", 2, 0, 40, DESK_LIMIT, 2 },
};

/* Checks that the first bad or missing byte decides, whatever is wrong behind it. */
static void check_order_in_book(void)
{
    uint8_t book[DESK_MOST_BOOK_BYTES];
    memcpy(book, house.book.bytes, house.book.length);
    for (size_t i = 0; i < COUNT(spoilings); i++) {
        book[spoilings[i].offset] = spoilings[i].byte;
        check_refused(spoilings[i].name, (struct slice){ book, spoilings[i].length }, spoilings[i].number,
                      spoilings[i].place);
    }
}

static void check_useless(void)
{
    uint8_t longer[sizeof sterile + 1] = { 0 };
    memcpy(longer, sterile, sizeof sterile);
    check_refused("I", (struct slice)ALL_OF(sterile), DESK_USELESS, 1);
    check_refused("I and a byte", (struct slice)ALL_OF(longer), DESK_EXTRA, sizeof sterile);
    check_refused("sterile start", (struct slice)ALL_OF(sterile_start), DESK_USELESS, 0);
    check_refused("unreached", (struct slice)ALL_OF(unreached), DESK_USELESS, 2);
    check_judge("backwards", (struct slice)ALL_OF(backwards), (struct wanted)DONE);
}

/* Checks the longest book there can be, whose every nonterminal has two full right sides. */
static void check_longest(void)
{
    static uint8_t book[DESK_MOST_BOOK_BYTES + 1] = { 'G', 'R', 62, 64, 0, 128 };
    for (size_t p = 0; p < 128; p++) {
        uint8_t *record = book + 6 + 20 * p;
        memset(record, 61, 20);
        record[0] = 'P';
        record[1] = 'R';
        record[2] = (uint8_t)(p % 64);
        record[3] = 16;
        if (p < 63)
            record[4] = (uint8_t)N(p + 1);
    }
    check_judge("longest", (struct slice){ book, DESK_MOST_BOOK_BYTES }, (struct wanted)DONE);
    check_refused("longest and a byte", (struct slice){ book, DESK_MOST_BOOK_BYTES + 1 }, DESK_EXTRA, 2566);
    check_refused("longest cut", (struct slice){ book, DESK_MOST_BOOK_BYTES - 1 }, DESK_SHORT, 2565);
}

void check_refused_books(void)
{
    check_cuts();
    check_damages();
    check_order_in_book();
    check_useless();
    check_longest();
}
