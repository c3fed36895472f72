#include "plain_sheets.h"

#include "plain/sheet.h"

/* A symbol takes at most four bytes, as ` t61`, and a line `n63 :` and a line feed beside its symbols. */
enum { MOST_SHEET_BYTES = 14 + MOST_PRODUCTIONS * (6 + 4 * MOST_LENGTH) };

uint32_t plain_write_sheet(const uint8_t *book, size_t book_len, uint8_t *sheet, size_t sheet_len,
                           uint8_t *answer, size_t answer_len)
{
    struct grammar grammar;
    struct answer result = { 0 };
    uint8_t text[MOST_SHEET_BYTES];
    if (answer_len < ANSWER_SIZE)
        return ROOM;
    if (read_book(book, book_len, &grammar, &result))
        copy_out(text, put_sheet(&grammar, text), sheet, sheet_len, &result);
    return give(&result, answer);
}

uint32_t plain_read_sheet(const uint8_t *sheet, size_t sheet_len, uint8_t *book, size_t book_len,
                          uint8_t *answer, size_t answer_len)
{
    struct answer result = { 0 };
    struct cursor at = { sheet, sheet_len, 0 };
    uint8_t bytes[MOST_BOOK_BYTES];
    size_t size = 0;
    if (answer_len < ANSWER_SIZE)
        return ROOM;
    if (!has_form(&at)) {
        refuse(&result, FORM, at.place, NO_DETAIL);
        return give(&result, answer);
    }
    at.place = 0;
    if (take_sheet(&at, bytes, &size, &result))
        copy_out(bytes, size, book, book_len, &result);
    return give(&result, answer);
}
