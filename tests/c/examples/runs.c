#include "examples.h"

#include "calls.h"

#include <string.h>

#define STRING_A BYTES(0, 1, 2, 1, 3, 1)

static const struct run_case runs[] = {
    { "A", &house, STRING_A, 3, 7, { 0, 0, 0, 13, 0 }, BYTES(0, 1, 2, 4, 1, 3, 5), 3 },
    { "B", &house, STRING_A, 2, 7, { 7, 1, 1, 2, 0 }, BYTES(0), 2 },
    { "C", &house, STRING_A, 3, 6, { 7, 6, 2, 12, 0 }, BYTES(0, 1, 2, 4, 1, 3), 3 },
    { "D", &house, BYTES(0, 1), 3, 4, { 0, 0, 0, 6, 0 }, BYTES(0, 1, 3, 5), 3 },
    { "D with more room", &house, BYTES(0, 1), 9, 9, { 0, 0, 0, 6, 0 }, BYTES(0, 1, 3, 5), 3 },
    { "E", &house, NONE, 3, 7, { 11, 0, 0, 0, 0x1 }, NONE, 1 },
    { "E with one cell", &house, NONE, 1, 0, { 11, 0, 0, 0, 0x1 }, NONE, 1 },
    { "E without a stack", &house, NONE, 0, 7, { 7, 0, 1, 0, 0 }, NONE, 0 },
    { "F", &house, BYTES(0, 1, 1), 3, 7, { 11, 2, 0, 4, END | 0xc }, BYTES(0, 1), 3 },
    { "G", &house, BYTES(0, 1, 4), 3, 7, { 10, 2, 0, 0, 0 }, NONE, 0 },
    { "G without room", &house, BYTES(0, 1, 4), 0, 0, { 10, 2, 0, 0, 0 }, NONE, 0 },
    { "bad token behind a syntax stop", &house, BYTES(3, 3, 255, 4), 3, 7, { 10, 2, 0, 0, 0 }, NONE, 0 },
    { "wrong token", &house, BYTES(1), 3, 7, { 11, 0, 0, 0, 0x1 }, NONE, 1 },
    { "token missing", &house, BYTES(0, 1, 2), 3, 7, { 11, 3, 0, 6, 0x2 }, BYTES(0, 1, 2), 3 },
    { "token other", &house, BYTES(0, 1, 2, 3), 3, 7, { 11, 3, 0, 6, 0x2 }, BYTES(0, 1, 2), 3 },
    { "token left in row 3", &house, BYTES(0, 1, 2, 1, 1), 3, 7, { 11, 4, 0, 7, END | 0x8 }, BYTES(0, 1, 2), 3 },
    { "M v+vxv", &sums, BYTES(4, 0, 4, 1, 4), 4, 11, { 0, 0, 0, 16, 0 }, BYTES(0, 3, 7, 5, 1, 3, 7, 4, 7, 5, 2), 4 },
    { "M (v+v)xv", &sums, BYTES(2, 4, 0, 4, 3, 1, 4), 6, 16, { 0, 0, 0, 23, 0 },
      BYTES(0, 3, 6, 0, 3, 7, 5, 1, 3, 7, 5, 2, 4, 7, 5, 2), 6 },
    { "M v+", &sums, BYTES(4, 0), 3, 5, { 11, 2, 0, 7, 0x14 }, BYTES(0, 3, 7, 5, 1), 3 },
    { "M slides adbc", &slides, BYTES(0, 3, 1, 2), 3, 7, { 11, 4, 0, 11, 0x5 }, BYTES(0, 2, 5, 1, 4, 3, 6), 3 },
    { "M slides bc", &slides, BYTES(1, 2), 3, 4, { 11, 2, 0, 6, 0x5 }, BYTES(1, 4, 3, 6), 3 },
    { "M slides abcdd", &slides, BYTES(0, 1, 2, 3, 3), 3, 7, { 11, 4, 0, 11, 0x5 }, BYTES(0, 2, 4, 3, 6, 1, 5), 3 },
    { "letters baab", &letters, BYTES(1, 0, 0, 1), 3, 4, { 0, 0, 0, 8, 0 }, BYTES(0, 2, 2, 3), 3 },
    { "letters aceb", &letters, BYTES(0, 2, 4, 1), 3, 3, { 0, 0, 0, 7, 0 }, BYTES(1, 4, 6), 3 },
    { "letters bc", &letters, BYTES(1, 2), 3, 1, { 11, 1, 0, 2, 0x3 }, BYTES(0), 3 },
    { "letters left over", &letters, BYTES(1, 1, 0), 3, 2, { 11, 2, 0, 4, END }, BYTES(0, 3), 3 },
    { "prefix", &prefix, BYTES(1, 3, 5, 1, 4, 5, 5, 2, 2, 0), 6, 14, { 0, 0, 0, 24, 0 },
      BYTES(0, 2, 3, 5, 1, 5, 2, 4, 5, 1, 5, 1, 6, 6), 6 },
    { "words", &words, BYTES(1, 0, 1, 2, 0, 0, 1, 0), 2, 8, { 0, 0, 0, 16, 0 }, BYTES(1, 3, 1, 5, 6, 6, 7, 0), 2 },
    { "limit before room", &house, { zeros, 4097 }, 0, 0, { 4, 4096, 0, 0, 0 }, NONE, 0 },
    { "very many tokens", &house, { zeros, MANY_CELLS }, 3, 7, { 4, 4096, 0, 0, 0 }, NONE, 0 },
};

/* A table of the house book that is refused whatever the tokens and the room, for its length or for a cell. */
struct table_case {
    const char *name;
    struct slice table;
    struct slice tokens;
    size_t stack;
    size_t list;
    uint64_t place;
};

static void check_wrong_tables(void)
{
    const struct slice cut = { house.table.bytes, 19 };
    const struct table_case rows[] = {
        { "no table", NONE, BYTES(0, 1), 3, 7, 0 },
        { "table cut", cut, BYTES(0, 1), 3, 7, 19 },
        { "table longer", { zeros, 21 }, BYTES(9), 0, 0, 21 },
        { "table before limit", { zeros, 20 }, { zeros, 4097 }, 0, 0, 5 },
    };
    for (size_t i = 0; i < COUNT(rows); i++) {
        struct grammar changed = house;
        changed.table = rows[i].table;
        check_run(&(struct run_case){ rows[i].name, &changed, rows[i].tokens, rows[i].stack, rows[i].list,
                                      { DESK_TABLE, rows[i].place, 0, 0, 0 }, NONE, 0 });
    }
}

/* A cell of the house table changed, and whether the table is then refused at that cell. */
static const struct {
    size_t cell;
    uint8_t value;
    bool refused;
} table_damages[] = {
    { 0, 6, true }, { 0, 128, true }, { 0, 254, true }, { 0, 1, true }, { 19, 3, true }, { 19, 6, true },
    { 10, 1, true }, { 10, 4, true }, { 11, 2, false }, { 10, 3, false }, { 19, 255, false }, { 18, 5, false },
};

static void check_table_damages(void)
{
    for (size_t i = 0; i < COUNT(table_damages); i++) {
        uint8_t cells[DESK_MOST_TABLE_CELLS];
        struct grammar changed = house;
        struct run_case c = { "table damaged", &changed, NONE, 3, 7, { DESK_SYNTAX, 0, 0, 0, 0x1 }, NONE, 1 };
        memcpy(cells, house.table.bytes, house.table.length);
        cells[table_damages[i].cell] = table_damages[i].value;
        changed.table.bytes = cells;
        if (table_damages[i].refused) {
            c.wanted = (struct wanted){ DESK_TABLE, table_damages[i].cell, 0, 0, 0 };
            c.depth = 0;
        }
        check_run(&c);
    }
}

/* Checks a table never built here: the end mark's column leads on where the book's own table stops. */
static void check_foreign_table(void)
{
    uint8_t cells[DESK_MOST_TABLE_CELLS];
    struct grammar changed = house;
    memcpy(cells, house.table.bytes, house.table.length);
    cells[4] = 0;
    changed.table.bytes = cells;
    check_run(&(struct run_case){ "foreign table", &changed, NONE, 2, 1, { DESK_SYNTAX, 0, 0, 1, 0x1 }, BYTES(0), 2 });
    check_run(&(struct run_case){ "foreign table", &changed, NONE, 2, 0, { DESK_ROOM, 0, DESK_ROOM_LIST, 0, 0 }, NONE,
                                  1 });
}

void check_runs(void)
{
    for (size_t i = 0; i < COUNT(runs); i++)
        check_run(&runs[i]);
    check_run(&(struct run_case){ "bad token first", &house, house.book, 3, 7, { DESK_TOKEN, 0, 0, 0, 0 }, NONE, 0 });
    check_wrong_tables();
    check_table_damages();
    check_foreign_table();
}
