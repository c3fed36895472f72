#include "examples.h"

#include "calls.h"

static const struct grammar *const grammars[] = {
    &house, &house_one, &ones, &slides, &sums, &letters, &prefix, &words,
    &weak, &vanishing, &at_end, &through, &twins, &leading,
};

/* What sets answer for the rooms given, the first buffer before the second. */
static struct wanted sets_wanted(const struct grammar *grammar, size_t firsts, size_t follows)
{
    size_t cells = nonterminals_of(grammar);
    if (firsts < cells)
        return (struct wanted){ DESK_ROOM, cells, DESK_ROOM_FIRST, 0, 0 };
    if (follows < cells)
        return (struct wanted){ DESK_ROOM, cells, DESK_ROOM_FOLLOW, 0, 0 };
    return (struct wanted)DONE;
}

/* What building answers for the rooms given, all of them before a conflict. */
static struct wanted build_wanted(const struct grammar *grammar, size_t firsts, size_t follows, size_t cells)
{
    struct wanted wanted = sets_wanted(grammar, firsts, follows);
    if (wanted.number != DESK_DONE)
        return wanted;
    if (cells < table_size(grammar))
        return (struct wanted){ DESK_ROOM, table_size(grammar), DESK_ROOM_TABLE, 0, 0 };
    return grammar->built;
}

/* Checks sets and building with buffers that are short, exact and longer, in every combination. */
static void check_set_rooms(const struct grammar *grammar)
{
    size_t cells = nonterminals_of(grammar), size = table_size(grammar);
    size_t rooms[] = { 0, cells - 1, cells, cells + 3 };
    size_t table_rooms[] = { 0, size - 1, size, size + 5 };
    for (size_t i = 0; i < COUNT(rooms); i++)
        for (size_t k = 0; k < COUNT(rooms); k++) {
            struct sets_case c = { grammar, rooms[i], rooms[k], 0, sets_wanted(grammar, rooms[i], rooms[k]) };
            check_sets(&c);
            for (size_t j = 0; j < COUNT(table_rooms); j++) {
                c.cells = table_rooms[j];
                c.wanted = build_wanted(grammar, c.firsts, c.follows, c.cells);
                check_build(&c);
            }
        }
}

/* In a table without conflict, the columns that hold a production are its lookahead. */
static uint64_t columns_of(const struct grammar *grammar, uint64_t production)
{
    uint64_t set = 0;
    for (size_t cell = 0; cell < grammar->table.length; cell++) {
        size_t column = cell % (terminals_of(grammar) + 1);
        if (grammar->table.bytes[cell] == production)
            set |= column == terminals_of(grammar) ? END : UINT64_C(1) << column;
    }
    return set;
}

/* How many symbols of the production's right side can vanish before the first that cannot, by the grammar's FIRST. */
static uint64_t leading_of(const struct grammar *grammar, uint64_t production)
{
    const uint8_t *record = grammar->book.bytes + 6;
    for (uint64_t p = 0; p < production; p++)
        record += 4 + record[3];
    uint64_t count = 0;
    while (count < record[3] && record[4 + count] >= N(0) && (grammar->first[record[4 + count] - N(0)] & EMPTY))
        count++;
    return count;
}

static void check_lookaheads(const struct grammar *grammar)
{
    uint64_t productions = productions_of(grammar);
    uint64_t beyond[] = { productions, productions + 1, 255, 256, UINT64_C(1) << 32, UINT64_C(1) << 63, UINT64_MAX };
    if (grammar->built.number == DESK_DONE)
        for (uint64_t p = 0; p < productions; p++)
            check_lookahead(grammar->name, grammar->book, p, (struct wanted)DONE, columns_of(grammar, p),
                            leading_of(grammar, p));
    for (size_t i = 0; i < COUNT(beyond); i++)
        check_lookahead(grammar->name, grammar->book, beyond[i],
                        (struct wanted){ DESK_PRODUCTION, beyond[i], 0, 0, 0 }, 0, 0);
}

static void check_first_of_nonterminals(const struct grammar *grammar)
{
    for (size_t n = 0; n < nonterminals_of(grammar); n++) {
        uint8_t symbol = (uint8_t)N(n);
        check_first_of(grammar->name, grammar->book, (struct slice){ &symbol, 1 }, (struct wanted)DONE,
                       grammar->first[n], grammar->first[n] & EMPTY ? 1 : 0);
    }
}

void check_grammar(const struct grammar *grammar)
{
    check_judge(grammar->name, grammar->book, (struct wanted)DONE);
    check_set_rooms(grammar);
    check_lookaheads(grammar);
    check_first_of_nonterminals(grammar);
}

/* Fifteen times the nonterminal of the house grammar that is `in` and a name, or nothing. */
#define FIFTEEN N(2), N(2), N(2), N(2), N(2), N(2), N(2), N(2), N(2), N(2), N(2), N(2), N(2), N(2), N(2)

/* Symbol strings of the house grammar, with FIRST of each and how many leading symbols can vanish, or its refusal. */
static const struct {
    const char *name;
    struct slice symbols;
    struct wanted wanted;
    uint64_t set;
    uint64_t count;
} strings[] = {
    { "empty string", NONE, DONE, EMPTY, 0 },
    { "token", BYTES(3), DONE, 0x8, 0 },
    { "in or and", BYTES(N(2), N(3)), DONE, EMPTY | 0xc, 2 },
    { "vanishing then a token", BYTES(N(2), N(3), 1), DONE, 0xe, 2 },
    { "not past a token", BYTES(N(2), 0, N(3)), DONE, 0x5, 1 },
    { "not past a name", BYTES(N(2), N(1), N(3)), DONE, 0x6, 1 },
    { "vanishing twice", BYTES(N(3), N(3)), DONE, EMPTY | 0x8, 2 },
    { "in", BYTES(N(2)), DONE, EMPTY | 0x4, 1 },
    { "and", BYTES(N(3)), DONE, EMPTY | 0x8, 1 },
    { "two vanish, a token, one more", BYTES(N(2), N(3), 0, N(2)), DONE, 0xd, 2 },
    { "one vanishes, a token, one more", BYTES(N(3), 0, N(2)), DONE, 0x9, 1 },
    { "a token, one more", BYTES(0, N(2)), DONE, 0x1, 0 },
    { "sixteen", BYTES(FIFTEEN, 1), DONE, 0x6, 15 },
    { "sixteen that vanish", BYTES(FIFTEEN, N(2)), DONE, EMPTY | 0x4, 16 },
    { "seventeen that vanish", BYTES(FIFTEEN, N(2), N(2)), { 4, 16, 0, 0, 0 }, 0, 0 },
    { "seventeen", { zeros, 17 }, { 4, 16, 0, 0, 0 }, 0, 0 },
    { "very many", { zeros, 5000 }, { 4, 16, 0, 0, 0 }, 0, 0 },
    { "limit before symbol", BYTES(9, 9, 9, 9, 9, 9, 9, 9, 9, 9, 9, 9, 9, 9, 9, 9, 9), { 4, 16, 0, 0, 0 }, 0, 0 },
    { "no such token", BYTES(0, 4, 5), { 5, 1, 0, 0, 0 }, 0, 0 },
    { "no such token behind one that vanishes", BYTES(N(2), 4), { 5, 1, 0, 0, 0 }, 0, 0 },
    { "no such nonterminal", BYTES(0, 1, N(4)), { 5, 2, 0, 0, 0 }, 0, 0 },
    { "no symbol", BYTES(127), { 5, 0, 0, 0, 0 }, 0, 0 },
    { "no symbol at the end", BYTES(0, 0, 0, 0, 0, 0, 0, 0, 0, 0, 0, 0, 0, 0, 0, 255), { 5, 15, 0, 0, 0 }, 0, 0 },
};

/* FIRST of part of a string of the house grammar. */
static uint64_t first_of_part(const char *name, struct slice symbols)
{
    uint8_t answer[DESK_ANSWER_SIZE];
    uint64_t set = 0, count = 0;
    check(name, "part served", desk_first_of(house.book.bytes, house.book.length, symbols.bytes, symbols.length,
                                             &set, 1, &count, 1, answer, sizeof answer) == DESK_DONE);
    return set;
}

/* Checks that FIRST of a string is the join of FIRST of its two parts, wherever it is split. */
static void check_splits(const char *name, struct slice symbols, uint64_t set)
{
    for (size_t cut = 0; cut <= symbols.length; cut++) {
        uint64_t left = first_of_part(name, (struct slice){ symbols.bytes, cut });
        uint64_t right = cut == symbols.length
                       ? first_of_part(name, (struct slice)NONE)
                       : first_of_part(name, (struct slice){ symbols.bytes + cut, symbols.length - cut });
        check(name, "join of two parts", ((left & ~EMPTY) | (left & EMPTY ? right : 0)) == set);
    }
}

/* Lookaheads, of books that have a conflict and so no table to read them from too, and how many leading symbols of the
   right side can vanish; or refusals. */
static const struct {
    const char *name;
    const struct grammar *grammar;
    uint64_t production;
    struct wanted wanted;
    uint64_t set;
    uint64_t count;
} lookaheads[] = {
    { "J 0", &ones, 0, DONE, 0x2, 0 },
    { "J 1", &ones, 1, DONE, 0x2, 0 },
    { "weak 2", &weak, 2, DONE, 0x7, 1 },
    { "weak 4", &weak, 4, DONE, 0x6, 0 },
    { "at the end 1", &at_end, 1, DONE, END, 1 },
    { "H 0", &house, 0, DONE, 0x1, 0 },
    { "H 1", &house, 1, DONE, 0x2, 0 },
    { "H 2", &house, 2, DONE, 0x4, 0 },
    { "H 3", &house, 3, DONE, END | 0x8, 0 },
    { "H 4", &house, 4, DONE, 0x8, 0 },
    { "H 5", &house, 5, DONE, END, 0 },
    { "H 6", &house, 6, { DESK_PRODUCTION, 6, 0, 0, 0 }, 0, 0 },
    { "V 0", &leading, 0, DONE, 0x7, 2 },
    { "V 2", &leading, 2, DONE, 0x6, 0 },
    { "V 4", &leading, 4, DONE, 0x4, 0 },
};

void check_sets_and_tables(void)
{
    for (size_t i = 0; i < COUNT(grammars); i++)
        check_grammar(grammars[i]);
    for (size_t i = 0; i < COUNT(strings); i++) {
        check_first_of(strings[i].name, house.book, strings[i].symbols, strings[i].wanted, strings[i].set,
                       strings[i].count);
        if (strings[i].wanted.number == DESK_DONE)
            check_splits(strings[i].name, strings[i].symbols, strings[i].set);
    }
    for (size_t i = 0; i < COUNT(lookaheads); i++)
        check_lookahead(lookaheads[i].name, lookaheads[i].grammar->book, lookaheads[i].production,
                        lookaheads[i].wanted, lookaheads[i].set, lookaheads[i].count);
}
