#include "examples.h"

#include "check.h"

#include <stdio.h>
#include <string.h>

#define ONE_LINE "4 4 0 1\n"
#define SIXTEEN " t0 t0 t0 t0 t0 t0 t0 t0 t0 t0 t0 t0 t0 t0 t0 t0"
#define FIFTY_NINES "99999999999999999999999999999999999999999999999999"

static const char house_sheet[] =
    "4 4 0 6\n"
    "n0 : t0 n1\n"
    "n1 : t1 n2 n3\n"
    "n2 : t2 t1\n"
    "n2 :\n"
    "n3 : t3 n1\n"
    "n3 :\n";

/* A sheet and its refusal. */
static const struct {
    const char *text;
    uint32_t number;
    uint64_t place;
} refused[] = {
    { "", DESK_FORM, 0 },
    { "4 4 0 6\n", DESK_SHORT, 8 },
    { "04 4 0 6\n", DESK_FORM, 1 },
    { "00 4 0 6\n", DESK_FORM, 1 },
    { "4 4 0 6", DESK_FORM, 7 },
    { "4  4 0 6\n", DESK_FORM, 2 },
    { "63 4 0 6\n", DESK_LIMIT, 0 },
    { "0 4 0 6\n", DESK_LIMIT, 0 },
    { "62 64 63 128\n", DESK_SHORT, 13 },
    { "4 65 0 6\n", DESK_LIMIT, 2 },
    { "4 4 4 6\n", DESK_LIMIT, 4 },
    { "4 4 0 129\n", DESK_LIMIT, 6 },
    { FIFTY_NINES " 4 0 1\n", DESK_LIMIT, 0 },
    { ONE_LINE "n4 :\n", DESK_SYMBOL, 9 },
    { ONE_LINE "n0 : t4\n", DESK_SYMBOL, 14 },
    { ONE_LINE "n0 : t3 n4\n", DESK_SYMBOL, 17 },
    { ONE_LINE "n0 :" SIXTEEN " t0\n", DESK_LIMIT, 61 },
    { ONE_LINE "n0 :" SIXTEEN " t9\n", DESK_LIMIT, 61 },
    { ONE_LINE "n0 :\nn9 :\n", DESK_EXTRA, 13 },
    { ONE_LINE "n0 :\nn9\n", DESK_FORM, 15 },
    { ONE_LINE "n0 : \n", DESK_FORM, 13 },
    { ONE_LINE "n00 :\n", DESK_FORM, 10 },
    { ONE_LINE "n0:\n", DESK_FORM, 10 },
    { ONE_LINE "\n", DESK_FORM, 8 },
    { "4 4 0 2\nn9 :\n", DESK_SYMBOL, 9 },
    { "4 4 0 2\nn0 :\n", DESK_SHORT, 13 },
    { "4 4 0 6\r\n", DESK_FORM, 7 },
    { ONE_LINE "n0 : t0 \n", DESK_FORM, 16 },
    { ONE_LINE "n0 :\n\n", DESK_FORM, 13 },
    { ONE_LINE "n0 :\tt0\n", DESK_FORM, 12 },
};

/* Checks a reading with every kind of answer buffer and of empty slice. */
static void check_read(const char *name, const char *text, size_t length, size_t room, struct wanted wanted,
                       struct slice book)
{
    static const size_t sizes[] = { 0, DESK_ANSWER_SIZE - 1, DESK_ANSWER_SIZE, DESK_ANSWER_SIZE + 8 };
    const uint8_t *bytes = (const uint8_t *)text;
    for (size_t i = 0; i < 2 * COUNT(sizes); i++) {
        struct lent answer = lend_bytes(sizes[i / 2]), lent = lend_bytes(room);
        bool served = sizes[i / 2] >= DESK_ANSWER_SIZE;
        empty_is_null = i % 2 != 0;
        if (served)
            want_answer(&answer, &wanted);
        if (served && wanted.number == DESK_DONE)
            want_prefix(&lent, book);
        uint32_t number = desk_read_sheet(lay(STRING_SLOT, bytes, length), length, lent_bytes(&lent), room,
                                          lent_bytes(&answer), sizes[i / 2]);
        check(name, "read number", number == (served ? wanted.number : DESK_ROOM));
        check(name, "sheet", laid_holds(STRING_SLOT, bytes, length));
        check_buffer(name, "book", &lent);
        check_buffer(name, "read answer", &answer);
    }
}

static void check_write(const char *name, struct slice book, size_t room, struct wanted wanted, struct slice sheet)
{
    static const size_t sizes[] = { 0, DESK_ANSWER_SIZE - 1, DESK_ANSWER_SIZE, DESK_ANSWER_SIZE + 8 };
    for (size_t i = 0; i < 2 * COUNT(sizes); i++) {
        struct lent answer = lend_bytes(sizes[i / 2]), lent = lend_bytes(room);
        bool served = sizes[i / 2] >= DESK_ANSWER_SIZE;
        empty_is_null = i % 2 != 0;
        if (served)
            want_answer(&answer, &wanted);
        if (served && wanted.number == DESK_DONE)
            want_prefix(&lent, sheet);
        uint32_t number = desk_write_sheet(lay_slice(BOOK_SLOT, book), book.length, lent_bytes(&lent), room,
                                           lent_bytes(&answer), sizes[i / 2]);
        check(name, "write number", number == (served ? wanted.number : DESK_ROOM));
        check_slice(name, "written book", BOOK_SLOT, book);
        check_buffer(name, "written sheet", &lent);
        check_buffer(name, "write answer", &answer);
    }
}

/* H both ways, with just the room it needs, one byte less, one more, and none. */
static void check_house(void)
{
    struct slice book = ALL_OF(house_book), sheet = { (const uint8_t *)house_sheet, sizeof house_sheet - 1 };
    const struct wanted read = { DESK_DONE, 0, 0, 39, 0 }, written = { DESK_DONE, 0, 0, 65, 0 };
    const struct wanted no_book = { DESK_ROOM, 39, 0, 0, 0 }, no_sheet = { DESK_ROOM, 65, 0, 0, 0 };
    check("H", "sheet's size", sheet.length == 65);
    for (size_t room = 38; room <= 40; room++)
        check_read("H read", house_sheet, sheet.length, room, room < 39 ? no_book : read, book);
    for (size_t room = 64; room <= 66; room++)
        check_write("H written", book, room, room < 65 ? no_sheet : written, sheet);
    check_read("H read", house_sheet, sheet.length, 0, no_book, book);
    check_write("H written", book, 0, no_sheet, sheet);
}

/* The longest sheet, and that it gives the longest book. */
static void check_longest(void)
{
    static char text[DESK_MOST_SHEET_BYTES + 1];
    static uint8_t book[DESK_MOST_BOOK_BYTES];
    size_t at = (size_t)sprintf(text, "62 64 63 128\n");
    uint8_t *record = book + 6;
    memcpy(book, (const uint8_t[]){ 'G', 'R', 62, 64, 63, 128 }, 6);
    for (size_t p = 0; p < 128; p++, record += 20) {
        at += (size_t)sprintf(text + at, "n63 :");
        memcpy(record, (const uint8_t[]){ 'P', 'R', 63, 16 }, 4);
        memset(record + 4, 61, 16);
        for (size_t i = 0; i < 16; i++)
            at += (size_t)sprintf(text + at, " t61");
        at += (size_t)sprintf(text + at, "\n");
    }
    check("longest", "size", at == DESK_MOST_SHEET_BYTES && record == book + sizeof book);
    struct slice sheet = { (const uint8_t *)text, at }, whole = ALL_OF(book);
    check_read("longest", text, at, sizeof book, (struct wanted){ DESK_DONE, 0, 0, sizeof book, 0 }, whole);
    check_write("longest", whole, at, (struct wanted){ DESK_DONE, 0, 0, at, 0 }, sheet);
    check_write("longest", whole, at - 1, (struct wanted){ DESK_ROOM, at, 0, 0, 0 }, sheet);
}

void check_sheets(void)
{
    struct slice none = NONE;
    for (size_t i = 0; i < COUNT(refused); i++)
        check_read(refused[i].text, refused[i].text, strlen(refused[i].text), DESK_MOST_BOOK_BYTES,
                   (struct wanted){ refused[i].number, refused[i].place, 0, 0, 0 }, none);
    check_write("no book", none, 100, (struct wanted){ DESK_SHORT, 0, 0, 0, 0 }, none);
    check_house();
    check_longest();
}
