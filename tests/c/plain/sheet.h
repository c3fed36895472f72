#ifndef PLAIN_SHEET_H
#define PLAIN_SHEET_H

#include "book.h"

#include <string.h>

/* Grammar sheets, from document 02: first the form of the whole sheet, then its values front to back. */

enum { FORM = 13, TOO_LARGE = 1000, MOST_BOOK_BYTES = 2566 };

/* A sheet with the place of its next byte. */
struct cursor {
    const uint8_t *sheet;
    size_t length;
    size_t place;
};

static bool next_is(const struct cursor *at, uint8_t byte)
{
    return at->place < at->length && at->sheet[at->place] == byte;
}

static bool skip(struct cursor *at, uint8_t byte)
{
    if (!next_is(at, byte))
        return false;
    at->place++;
    return true;
}

static bool digit_is_next(const struct cursor *at)
{
    return at->place < at->length && at->sheet[at->place] >= '0' && at->sheet[at->place] <= '9';
}

/* A number without leading zeros; of a large one only that it is. */
static bool skip_number(struct cursor *at, size_t *value)
{
    *value = 0;
    if (skip(at, '0'))
        return true;
    if (!digit_is_next(at))
        return false;
    while (digit_is_next(at))
        *value = smaller(10 * *value + (at->sheet[at->place++] - '0'), TOO_LARGE);
    return true;
}

static bool skip_line(struct cursor *at)
{
    size_t value;
    if (!skip(at, 'n') || !skip_number(at, &value) || !skip(at, ' ') || !skip(at, ':'))
        return false;
    while (skip(at, ' '))
        if ((!skip(at, 't') && !skip(at, 'n')) || !skip_number(at, &value))
            return false;
    return skip(at, '\n');
}

/* Whether the sheet has the form; else its place is that of the first byte that breaks it. */
static bool has_form(struct cursor *at)
{
    size_t value;
    for (size_t i = 0; i < 4; i++)
        if (!skip_number(at, &value) || !skip(at, i < 3 ? ' ' : '\n'))
            return false;
    while (at->place < at->length)
        if (!skip_line(at))
            return false;
    return true;
}

/* The number at the place, which must lie from low up to and without high. */
static bool take_number(struct cursor *at, size_t low, size_t high, uint32_t number, size_t *value,
                        struct answer *answer)
{
    size_t place = at->place;
    skip_number(at, value);
    return (*value >= low && *value < high) || refuse(answer, number, place, NO_DETAIL);
}

/* The symbols of a line into the record that begins at `size`. */
static bool take_symbols(struct cursor *at, const size_t *limits, uint8_t *book, size_t *size, struct answer *answer)
{
    uint8_t *length = &book[*size - 1];
    for (*length = 0; skip(at, ' '); (*length)++) {
        size_t value;
        bool token = next_is(at, 't');
        if (*length == MOST_LENGTH)
            return refuse(answer, LIMIT, at->place, NO_DETAIL);
        at->place++;
        if (!take_number(at, 0, limits[token ? 0 : 1], SYMBOL, &value, answer))
            return false;
        book[(*size)++] = (uint8_t)(token ? value : NONTERMINAL + value);
    }
    at->place++;
    return true;
}

static bool take_line(struct cursor *at, const size_t *limits, uint8_t *book, size_t *size, struct answer *answer)
{
    size_t left;
    if (at->place == at->length)
        return refuse(answer, SHORT, at->length, NO_DETAIL);
    at->place++;
    if (!take_number(at, 0, limits[1], SYMBOL, &left, answer))
        return false;
    at->place += 2;
    const uint8_t opening[] = { 'P', 'R', (uint8_t)left, 0 };
    memcpy(book + *size, opening, sizeof opening);
    *size += sizeof opening;
    return take_symbols(at, limits, book, size, answer);
}

/* The book of a sheet that has the form. */
static bool take_sheet(struct cursor *at, uint8_t *book, size_t *size, struct answer *answer)
{
    static const size_t most[] = { MOST_TERMINALS, MOST_NONTERMINALS, 0, MOST_PRODUCTIONS };
    size_t values[4];
    for (size_t i = 0; i < 4; i++, at->place++)
        if (!take_number(at, i != 2, i == 2 ? values[1] : most[i] + 1, LIMIT, &values[i], answer))
            return false;
    const uint8_t opening[] = { 'G', 'R', (uint8_t)values[0], (uint8_t)values[1], (uint8_t)values[2],
                                (uint8_t)values[3] };
    memcpy(book, opening, sizeof opening);
    *size = sizeof opening;
    for (size_t p = 0; p < values[3]; p++)
        if (!take_line(at, values, book, size, answer))
            return false;
    return at->place == at->length || refuse(answer, EXTRA, at->place, NO_DETAIL);
}

static size_t put_number(uint8_t *text, size_t at, size_t number)
{
    if (number >= 10)
        at = put_number(text, at, number / 10);
    text[at] = (uint8_t)('0' + number % 10);
    return at + 1;
}

/* The sheet of a book that was read. */
static size_t put_sheet(const struct grammar *grammar, uint8_t *text)
{
    const size_t values[] = { grammar->terminals, grammar->nonterminals, grammar->start, grammar->productions };
    size_t at = 0;
    for (size_t i = 0; i < 4; i++) {
        at = put_number(text, at, values[i]);
        text[at++] = i < 3 ? ' ' : '\n';
    }
    for (size_t p = 0; p < grammar->productions; p++) {
        text[at++] = 'n';
        at = put_number(text, at, grammar->left[p]);
        text[at++] = ' ';
        text[at++] = ':';
        for (size_t i = 0; i < grammar->length[p]; i++) {
            uint8_t symbol = grammar->right[p][i];
            text[at++] = ' ';
            text[at++] = symbol < NONTERMINAL ? 't' : 'n';
            at = put_number(text, at, symbol % NONTERMINAL);
        }
        text[at++] = '\n';
    }
    return at;
}

/* Copies to the lent buffer what fits it as a whole. */
static void copy_out(const uint8_t *bytes, size_t size, uint8_t *lent, size_t lent_len, struct answer *answer)
{
    if (lent_len < size) {
        refuse(answer, ROOM, size, NO_DETAIL);
        return;
    }
    memcpy(lent, bytes, size);
    answer->steps = size;
}

#endif
