#ifndef INPUTS_H
#define INPUTS_H

#include "pick.h"
#include "shape.h"

/* The inputs of one case; `string` is tokens, a list or symbols. */
struct inputs {
    struct shape shape;
    uint8_t book[DESK_MOST_BOOK_BYTES + 64];
    size_t book_length;
    uint8_t table[DESK_MOST_TABLE_CELLS + 64];
    size_t table_length;
    uint8_t string[MANY_CELLS];
    size_t string_length;
};

extern struct inputs in;

/* How long derivations and runs mostly are. */
enum { FEW_STEPS = 1500 };

/* Writes a grammar as the case's book. */
void write_book(const struct shape *shape);

/* Makes a grammar and its book, with no table and no string yet. */
void make_book(void);

/* Leaves most books as they are, and damages, cuts, extends or replaces the others. */
void spoil_book(void);

/* The book's own table if it has one, else one made in another way. */
void make_table(const struct shape *shape);

/* Changes one cell of the table to what its row allows there. */
void change_cell(const struct shape *shape);

/* Derives a token string from the start, which the tokens or the list that are made next come from. */
void make_derivation(const struct shape *shape);

/* Tokens that the grammar derives, also damaged, cut and extended, and random ones, also too many. */
void make_tokens(const struct shape *shape);

/* A derivation's list, also damaged, cut and extended, and random ones, also too long. */
void make_list(const struct shape *shape);
void make_symbols(const struct shape *shape);

#endif
