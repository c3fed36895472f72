#include "books.h"

#define WORDS(...) (const uint64_t[]){ __VA_ARGS__ }

const struct grammar house = {
    .name = "H",
    .book = ALL_OF(house_book),
    .first = WORDS(0x1, 0x2, EMPTY | 0x4, EMPTY | 0x8),
    .follow = WORDS(END, END, END | 0x8, END),
    .table = BYTES(
        0, NO, NO, NO, NO,
        NO, 1, NO, NO, NO,
        NO, NO, 2, 3, 3,
        NO, NO, NO, 4, 5),
};

/* H1: the house book with the right side of production 4 changed to 02 81. */
const struct grammar house_one = {
    .name = "H1",
    .book = BYTES(
        'G', 'R', 4, 4, 0, 6,
        'P', 'R', 0, 2, 0, N(1),
        'P', 'R', 1, 3, 1, N(2), N(3),
        'P', 'R', 2, 2, 2, 1,
        'P', 'R', 2, 0,
        'P', 'R', 3, 2, 2, N(1),
        'P', 'R', 3, 0),
    .first = WORDS(0x1, 0x2, EMPTY | 0x4, EMPTY | 0x4),
    .follow = WORDS(END, END, END | 0x4, END),
    .built = { DESK_CONFLICT, 12, 515, 0, 0 },
};

/* J, of source document 001. */
const struct grammar ones = {
    .name = "J",
    .book = BYTES(
        'G', 'R', 2, 2, 0, 3,
        'P', 'R', 0, 3, 1, N(0), 1,
        'P', 'R', 0, 2, N(1), 0,
        'P', 'R', 1, 1, 1),
    .first = WORDS(0x2, 0x2),
    .follow = WORDS(END | 0x2, 0x1),
    .built = { DESK_CONFLICT, 1, 1, 0, 0 },
};

/* M: the FIRST sets of source document 002. */
const struct grammar slides = {
    .name = "M slides",
    .book = BYTES(
        'G', 'R', 4, 4, 0, 7,
        'P', 'R', 0, 2, N(1), N(0),
        'P', 'R', 0, 2, N(2), N(1),
        'P', 'R', 1, 2, 0, N(2),
        'P', 'R', 1, 1, N(3),
        'P', 'R', 2, 2, 1, N(1),
        'P', 'R', 2, 1, 3,
        'P', 'R', 3, 1, 2),
    .first = WORDS(0xf, 0x5, 0xa, 0x4),
    .follow = WORDS(END, END | 0xf, END | 0xf, END | 0xf),
    .table = BYTES(
        0, 1, 0, 1, NO,
        2, NO, 3, NO, NO,
        NO, 4, NO, 5, NO,
        NO, NO, 6, NO, NO),
};

/* M: Table 4.1 of source document 001. */
const struct grammar sums = {
    .name = "M table",
    .book = BYTES(
        'G', 'R', 5, 5, 0, 8,
        'P', 'R', 0, 2, N(2), N(1),
        'P', 'R', 1, 3, 0, N(2), N(1),
        'P', 'R', 1, 0,
        'P', 'R', 2, 2, N(4), N(3),
        'P', 'R', 3, 3, 1, N(4), N(3),
        'P', 'R', 3, 0,
        'P', 'R', 4, 3, 2, N(0), 3,
        'P', 'R', 4, 1, 4),
    .first = WORDS(0x14, EMPTY | 0x1, 0x14, EMPTY | 0x2, 0x14),
    .follow = WORDS(END | 0x8, END | 0x8, END | 0x9, END | 0x9, END | 0xb),
    .table = BYTES(
        NO, NO, 0, NO, 0, NO,
        1, NO, NO, 2, NO, 2,
        NO, NO, 3, NO, 3, NO,
        5, 4, NO, 5, NO, 5,
        NO, NO, 6, NO, 7, NO),
};

const struct grammar letters = {
    .name = "letters",
    .book = BYTES(
        'G', 'R', 5, 4, 0, 7,
        'P', 'R', 0, 3, 1, N(1), 1,
        'P', 'R', 0, 3, 0, N(2), 1,
        'P', 'R', 1, 2, 0, N(1),
        'P', 'R', 1, 0,
        'P', 'R', 2, 2, 2, N(3),
        'P', 'R', 2, 1, 3,
        'P', 'R', 3, 1, 4),
    .first = WORDS(0x3, EMPTY | 0x1, 0xc, 0x10),
    .follow = WORDS(END, 0x2, 0x2, 0x2),
    .table = BYTES(
        1, 0, NO, NO, NO, NO,
        2, 3, NO, NO, NO, NO,
        NO, NO, 4, 5, NO, NO,
        NO, NO, NO, NO, 6, NO),
};

const struct grammar prefix = {
    .name = "prefix",
    .book = BYTES(
        'G', 'R', 6, 4, 0, 7,
        'P', 'R', 0, 2, N(1), 0,
        'P', 'R', 1, 1, 5,
        'P', 'R', 1, 3, 1, N(2), 2,
        'P', 'R', 2, 2, 3, N(3),
        'P', 'R', 2, 2, 4, N(3),
        'P', 'R', 3, 2, N(1), N(3),
        'P', 'R', 3, 0),
    .first = WORDS(0x22, 0x22, 0x18, EMPTY | 0x22),
    .follow = WORDS(END, 0x27, 0x4, 0x4),
    .table = BYTES(
        NO, 0, NO, NO, NO, 0, NO,
        NO, 2, NO, NO, NO, 1, NO,
        NO, NO, NO, 3, 4, NO, NO,
        NO, 5, 6, NO, NO, 5, NO),
};

const struct grammar words = {
    .name = "words",
    .book = BYTES(
        'G', 'R', 3, 3, 0, 8,
        'P', 'R', 0, 1, 0,
        'P', 'R', 0, 2, 1, N(1),
        'P', 'R', 0, 2, 2, N(1),
        'P', 'R', 1, 2, 0, N(0),
        'P', 'R', 1, 2, 1, N(0),
        'P', 'R', 1, 2, 2, N(2),
        'P', 'R', 2, 2, 0, N(2),
        'P', 'R', 2, 2, 1, N(0)),
    .first = WORDS(0x7, 0x7, 0x3),
    .follow = WORDS(END, END, END),
    .table = BYTES(
        0, 1, 2, NO,
        3, 4, 5, NO,
        6, 7, NO, NO),
};

const struct grammar weak = {
    .name = "weak",
    .book = BYTES(
        'G', 'R', 3, 3, 0, 7,
        'P', 'R', 0, 3, 0, N(2), 0,
        'P', 'R', 0, 3, N(2), N(1), 2,
        'P', 'R', 0, 3, N(1), N(2), 2,
        'P', 'R', 1, 2, 0, N(1),
        'P', 'R', 1, 0,
        'P', 'R', 2, 2, 1, 0,
        'P', 'R', 2, 1, 2),
    .first = WORDS(0x7, EMPTY | 0x1, 0x6),
    .follow = WORDS(END, 0x6, 0x5),
    .built = { DESK_CONFLICT, 0, 2, 0, 0 },
};

const struct grammar vanishing = {
    .name = "vanishing",
    .book = BYTES(
        'G', 'R', 3, 4, 0, 8,
        'P', 'R', 0, 2, N(1), 1,
        'P', 'R', 0, 2, 0, N(2),
        'P', 'R', 1, 1, N(3),
        'P', 'R', 1, 2, N(1), 1,
        'P', 'R', 2, 2, N(1), N(3),
        'P', 'R', 2, 2, 0, 1,
        'P', 'R', 3, 1, 2,
        'P', 'R', 3, 0),
    .first = WORDS(0x7, EMPTY | 0x6, EMPTY | 0x7, EMPTY | 0x4),
    .follow = WORDS(END, END | 0x6, END, END | 0x6),
    .built = { DESK_CONFLICT, 5, 515, 0, 0 },
};

const struct grammar at_end = {
    .name = "at the end",
    .book = BYTES(
        'G', 'R', 2, 4, 0, 5,
        'P', 'R', 0, 1, N(1),
        'P', 'R', 1, 1, N(2),
        'P', 'R', 1, 1, N(3),
        'P', 'R', 2, 0,
        'P', 'R', 3, 0),
    .first = WORDS(EMPTY, EMPTY, EMPTY, EMPTY),
    .follow = WORDS(END, END, END, END),
    .built = { DESK_CONFLICT, 5, 258, 0, 0 },
};

const struct grammar through = {
    .name = "through",
    .book = BYTES(
        'G', 'R', 2, 3, 0, 4,
        'P', 'R', 0, 2, N(1), 1,
        'P', 'R', 1, 1, N(2),
        'P', 'R', 2, 1, 0,
        'P', 'R', 2, 0),
    .first = WORDS(0x3, EMPTY | 0x1, EMPTY | 0x1),
    .follow = WORDS(END, 0x2, 0x2),
    .table = BYTES(
        0, 0, NO,
        1, 1, NO,
        2, 3, NO),
};

const struct grammar twins = {
    .name = "twins",
    .book = BYTES(
        'G', 'R', 1, 1, 0, 3,
        'P', 'R', 0, 1, 0,
        'P', 'R', 0, 1, 0,
        'P', 'R', 0, 1, 0),
    .first = WORDS(0x1),
    .follow = WORDS(END),
    .built = { DESK_CONFLICT, 0, 1, 0, 0 },
};

/* V: two nonterminals that can vanish before a token. */
const struct grammar leading = {
    .name = "V",
    .book = BYTES(
        'G', 'R', 3, 3, 0, 5,
        'P', 'R', 0, 3, N(1), N(2), 2,
        'P', 'R', 1, 1, 0,
        'P', 'R', 1, 0,
        'P', 'R', 2, 1, 1,
        'P', 'R', 2, 0),
    .first = WORDS(0x7, EMPTY | 0x1, EMPTY | 0x2),
    .follow = WORDS(END, 0x6, 0x4),
    .table = BYTES(
        0, 0, 0, NO,
        1, 2, 2, NO,
        NO, 3, 4, NO),
};
