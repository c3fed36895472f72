#include "inputs.h"

#include "plain.h"

#include <string.h>

struct inputs in;

void write_book(const struct shape *shape)
{
    const uint8_t header[] = { 'G', 'R', (uint8_t)shape->terminals, (uint8_t)shape->nonterminals,
                               (uint8_t)shape->start, (uint8_t)shape->productions };
    memcpy(in.book, header, sizeof header);
    in.book_length = sizeof header;
    for (size_t p = 0; p < shape->productions; p++) {
        const struct production *production = &shape->production[p];
        const uint8_t opening[] = { 'P', 'R', production->left, production->count };
        memcpy(in.book + in.book_length, opening, sizeof opening);
        memcpy(in.book + in.book_length + sizeof opening, production->right, production->count);
        in.book_length += sizeof opening + production->count;
    }
}

void make_book(void)
{
    in.table_length = in.string_length = 0;
    make_shape(&in.shape);
    write_book(&in.shape);
}

void spoil_book(void)
{
    size_t kind = pick(0, 99);
    if (kind < 6)
        damage(in.book, in.book_length);
    else if (kind < 9)
        damage(in.book, smaller(in.book_length, 12));
    else if (kind < 13)
        in.book_length = pick(0, in.book_length);
    else if (kind < 16)
        in.book_length = extend(in.book, in.book_length, sizeof in.book);
    else if (kind < 17)
        in.book_length = extend(in.book, pick(0, 4), sizeof in.book);
}

/* A cell that its row allows: none, or any production of the row. */
static uint8_t any_cell(const struct shape *shape, size_t row)
{
    size_t p = pick(0, shape->productions - 1);
    if (chance(20))
        return DESK_NO_PRODUCTION;
    for (size_t i = 0; i < shape->productions; i++, p = (p + 1) % shape->productions)
        if (shape->production[p].left == row)
            return (uint8_t)p;
    return DESK_NO_PRODUCTION;
}

static void make_random_table(const struct shape *shape)
{
    size_t columns = shape->terminals + 1;
    in.table_length = shape->nonterminals * columns;
    for (size_t cell = 0; cell < in.table_length; cell++)
        in.table[cell] = any_cell(shape, cell / columns);
}

/* Fills each cell with one of its claimants, as a maker does who keeps one of two. */
static void make_claimed_table(const struct shape *shape)
{
    size_t columns = shape->terminals + 1;
    in.table_length = shape->nonterminals * columns;
    memset(in.table, DESK_NO_PRODUCTION, in.table_length);
    for (size_t p = 0; p < shape->productions; p++) {
        uint8_t answer[DESK_ANSWER_SIZE];
        uint64_t set, count;
        plain_lookahead(in.book, in.book_length, p, &set, 1, &count, 1, answer, sizeof answer);
        uint8_t *row = in.table + shape->production[p].left * columns;
        for (size_t t = 0; t < columns; t++)
            if ((set >> (t == shape->terminals ? 62 : t) & 1) && (row[t] == DESK_NO_PRODUCTION || chance(50)))
                row[t] = (uint8_t)p;
    }
}

void make_table(const struct shape *shape)
{
    uint64_t first[64], follow[64];
    uint8_t answer[DESK_ANSWER_SIZE];
    in.table_length = shape->nonterminals * (shape->terminals + 1);
    bool built = chance(80)
              && plain_build(in.book, in.book_length, first, 64, follow, 64, in.table, sizeof in.table,
                             answer, sizeof answer) == DESK_DONE;
    if (!built && shape->productions <= 16 && chance(60))
        make_claimed_table(shape);
    else if (!built)
        make_random_table(shape);
    if (chance(8))
        damage(in.table, in.table_length);
    if (chance(4))
        in.table_length = chance(50) ? pick(0, in.table_length - 1)
                                     : extend(in.table, in.table_length, sizeof in.table);
}

void change_cell(const struct shape *shape)
{
    if (in.table_length == 0)
        return;
    size_t cell = pick(0, in.table_length - 1);
    in.table[cell] = any_cell(shape, cell / (shape->terminals + 1));
}
