#ifndef PLAIN_BOOK_H
#define PLAIN_BOOK_H

#include "grammar.h"

/* A book with the place of its next byte, and the answer that a refusal goes into. */
struct reader {
    const uint8_t *book;
    size_t length;
    size_t place;
    struct answer *answer;
};

/* Takes the next byte, which must lie between low and high, else `number` is refused at its place. */
static bool take(struct reader *reader, uint8_t low, uint8_t high, uint32_t number, uint8_t *byte)
{
    if (reader->place == reader->length)
        return refuse(reader->answer, SHORT, reader->length, NO_DETAIL);
    *byte = reader->book[reader->place];
    if (*byte < low || *byte > high)
        return refuse(reader->answer, number, reader->place, NO_DETAIL);
    reader->place++;
    return true;
}

static bool take_mark(struct reader *reader, uint8_t letter, uint8_t second)
{
    uint8_t byte;
    return take(reader, letter, letter, MARK, &byte) && take(reader, second, second, MARK, &byte);
}

static bool take_size(struct reader *reader, uint8_t low, size_t high, size_t *size)
{
    uint8_t byte = 0;
    bool taken = take(reader, low, (uint8_t)high, LIMIT, &byte);
    *size = byte;
    return taken;
}

static bool is_symbol(const struct grammar *grammar, uint8_t symbol)
{
    if (symbol < NONTERMINAL)
        return symbol < grammar->terminals;
    return (size_t)(symbol - NONTERMINAL) < grammar->nonterminals;
}

/* Takes the symbols of production p one by one, so that a bad one beats a later missing one. */
static bool take_right_side(struct reader *reader, struct grammar *grammar, size_t p)
{
    size_t end = smaller(reader->length, reader->place + grammar->length[p]);
    grammar->right[p] = reader->book + reader->place;
    grammar->uses[p] = 0;
    for (size_t i = reader->place; i < end; i++) {
        uint8_t symbol = reader->book[i];
        if (!is_symbol(grammar, symbol))
            return refuse(reader->answer, SYMBOL, i, NO_DETAIL);
        if (symbol >= NONTERMINAL)
            grammar->uses[p] |= bit(symbol - NONTERMINAL);
    }
    if (end < reader->place + grammar->length[p])
        return refuse(reader->answer, SHORT, reader->length, NO_DETAIL);
    reader->place = end;
    return true;
}

static bool take_header(struct reader *reader, struct grammar *grammar)
{
    return take_mark(reader, 'G', 'R')
        && take_size(reader, 1, MOST_TERMINALS, &grammar->terminals)
        && take_size(reader, 1, MOST_NONTERMINALS, &grammar->nonterminals)
        && take_size(reader, 0, grammar->nonterminals - 1, &grammar->start)
        && take_size(reader, 1, MOST_PRODUCTIONS, &grammar->productions);
}

static bool take_production(struct reader *reader, struct grammar *grammar, size_t p)
{
    return take_mark(reader, 'P', 'R')
        && take(reader, 0, (uint8_t)(grammar->nonterminals - 1), SYMBOL, &grammar->left[p])
        && take(reader, 0, MOST_LENGTH, LIMIT, &grammar->length[p])
        && take_right_side(reader, grammar, p);
}

static bool read_book(const uint8_t *book, size_t length, struct grammar *grammar, struct answer *answer)
{
    struct reader reader = { book, length, 0, answer };
    if (!take_header(&reader, grammar))
        return false;
    for (size_t p = 0; p < grammar->productions; p++)
        if (!take_production(&reader, grammar, p))
            return false;
    if (reader.place < length)
        return refuse(answer, EXTRA, reader.place, NO_DETAIL);
    return true;
}

/* The nonterminals that derive a token string. */
static uint64_t find_fertile(const struct grammar *grammar)
{
    uint64_t fertile = 0;
    for (uint64_t before = 1; before != fertile;) {
        before = fertile;
        for (size_t p = 0; p < grammar->productions; p++)
            if (!(grammar->uses[p] & ~fertile))
                fertile |= bit(grammar->left[p]);
    }
    return fertile;
}

/* The nonterminals reached from the start through productions that can end in a token string. */
static uint64_t find_useful(const struct grammar *grammar)
{
    uint64_t fertile = find_fertile(grammar);
    uint64_t useful = fertile & bit(grammar->start);
    for (uint64_t before = 0; before != useful;) {
        before = useful;
        for (size_t p = 0; p < grammar->productions; p++)
            if (!(grammar->uses[p] & ~fertile) && (useful & bit(grammar->left[p])))
                useful |= grammar->uses[p];
    }
    return useful;
}

/* Reads a book and judges it: its bytes from the front, then whether a nonterminal is useless. */
static inline bool judge(const uint8_t *book, size_t length, struct grammar *grammar, struct answer *answer)
{
    if (!read_book(book, length, grammar, answer))
        return false;
    uint64_t all = ~UINT64_C(0) >> (MOST_NONTERMINALS - grammar->nonterminals);
    uint64_t useless = all & ~find_useful(grammar);
    if (useless)
        return refuse(answer, USELESS, lowest(useless), NO_DETAIL);
    return true;
}

#endif
