#include "examples.h"

#include "calls.h"

#include <string.h>

enum { MOST_CHANGES = 2 };

/* A table of the house book with cells changed and a length of its own. */
struct changed {
    const char *name;
    const struct grammar *grammar;
    struct { size_t cell; uint8_t byte; } changes[MOST_CHANGES];
    size_t changed;
    size_t length;
    struct wanted wanted;
};

static const struct changed tables[] = {
    { "H", &house, { { 0, 0 } }, 0, 20, DONE },
    { "H, cell 13 vacant", &house, { { 13, NO } }, 1, 20, { .number = 17, .place = 13 } },
    { "H, cells 4 and 13", &house, { { 4, 0 }, { 13, NO } }, 2, 20, { .number = 17, .place = 4 } },
    { "H, cell 5 filled", &house, { { 5, 1 } }, 1, 20, { .number = 17, .place = 5 } },
    { "H, last cell vacant", &house, { { 19, NO } }, 1, 20, { .number = 17, .place = 19 } },
    { "H, cell 0 of another row", &house, { { 0, 1 } }, 1, 20, { .number = 9, .place = 0 } },
    { "H, cell 19 no production", &house, { { 4, 0 }, { 19, 6 } }, 2, 20, { .number = 9, .place = 19 } },
    { "H, 19 cells", &house, { { 0, 0 } }, 0, 19, { .number = 9, .place = 19 } },
    { "H, 21 cells", &house, { { 0, 0 } }, 0, 21, { .number = 9, .place = 21 } },
    { "H, no cells", &house, { { 0, 0 } }, 0, 0, { .number = 9, .place = 0 } },
    { "H1 with H's table", &house_one, { { 0, 0 } }, 0, 20, { .number = 8, .place = 12, .detail = 515 } },
    { "H1, cell 0 vacant", &house_one, { { 0, NO } }, 1, 20, { .number = 8, .place = 12, .detail = 515 } },
    { "H1, cell 0 of another row", &house_one, { { 0, 1 } }, 1, 20, { .number = 9, .place = 0 } },
};

static void check_changed(const struct changed *c)
{
    uint8_t cells[21];
    memset(cells, NO, sizeof cells);
    memcpy(cells, house.table.bytes, house.table.length);
    for (size_t i = 0; i < c->changed; i++)
        cells[c->changes[i].cell] = c->changes[i].byte;
    check_table(c->name, c->grammar->book, (struct slice){ cells, c->length }, c->wanted);
}

static const struct grammar *const grammars[] = { &house, &slides, &sums, &letters, &prefix, &words };

/* The left side of a production, or no nonterminal. */
static size_t left_of(const struct grammar *grammar, size_t production)
{
    const uint8_t *record = grammar->book.bytes + 6;
    for (size_t p = 0; p < productions_of(grammar); p++, record += 4 + record[3])
        if (p == production)
            return record[2];
    return DESK_MOST_NONTERMINALS;
}

/* Every cell of a table without conflict, changed to every other byte: 17 where the byte fits its row, else 9. */
static void check_each_cell(const struct grammar *grammar)
{
    uint8_t cells[DESK_MOST_TABLE_CELLS], answer[DESK_ANSWER_SIZE];
    struct slice book = grammar->book;
    size_t size = table_size(grammar);
    memcpy(cells, grammar->table.bytes, size);
    for (size_t cell = 0; cell < size; cell++)
        for (size_t byte = 0; byte < 256; byte++) {
            size_t row = cell / (terminals_of(grammar) + 1);
            bool fits = byte == NO || left_of(grammar, byte) == row;
            bool same = byte == grammar->table.bytes[cell];
            cells[cell] = (uint8_t)byte;
            uint32_t number = desk_check_table(book.bytes, book.length, cells, size, answer, sizeof answer);
            check(grammar->name, "a cell changed", number == (same ? DESK_DONE : fits ? DESK_DIFFERS : DESK_TABLE)
                                                   && answer[0] + 256u * answer[1] == (same ? 0 : cell));
            cells[cell] = grammar->table.bytes[cell];
        }
}

void check_tables(void)
{
    static const uint8_t useless[] = { 'G', 'R', 2, 3, 0, 4, 'P', 'R', 0, 1, 0, 'P', 'R', 0, 2, N(1), N(2),
                                      'P', 'R', 1, 1, 1, 'P', 'R', 2, 1, N(2) };
    static const uint8_t vacant[] = { NO, NO, NO, NO, NO, NO };
    for (size_t i = 0; i < COUNT(tables); i++)
        check_changed(&tables[i]);
    for (size_t i = 0; i < COUNT(grammars); i++) {
        check_table(grammars[i]->name, grammars[i]->book, grammars[i]->table, (struct wanted)DONE);
        check_each_cell(grammars[i]);
    }
    check_table("J, vacant cells", ones.book, (struct slice)ALL_OF(vacant),
                (struct wanted){ .number = 8, .place = 1, .detail = 1 });
    check_table("I, no cells", (struct slice)ALL_OF(useless), (struct slice)NONE,
                (struct wanted){ .number = 6, .place = 1 });
    check_table("no book", (struct slice)NONE, house.table, (struct wanted){ .number = 1 });
}
