#include "examples.h"

#include "check.h"
#include "machines.h"

#include <string.h>

#define TEXTS(...) (const char *const[]){ __VA_ARGS__, NULL }
#define HOUSE TEXTS("restore", "(St )?[A-Z][a-z]+", "in", "and")
#define LETTERS TEXTS("restore", "[A-Za-z]+", "in", "and")
#define WORDS TEXTS("restore", "in", "and", "[A-Za-z]+")
#define ACCENTS TEXTS("restore", "[A-Z][A-Za-z\\-\x80-\xff]+", "in", "and")
#define NO_PATTERN (const char *const[]){ NULL }
#define STATES(n) ((n) * (size_t)DESK_ROW_CELLS)
#define ANY DESK_MOST_MACHINE_CELLS

enum { MOST_BYTES = 2000 };

static const char order[] = "restore Anne in Ghent and Mary";

/* Patterns as they are lent. */
struct patterns {
    uint8_t bytes[MOST_BYTES];
    size_t size;
    uint64_t lengths[64];
    size_t count;
};

/* A cut of a line with the rooms that it is lent, the whole answer and the tokens written. */
struct cut_case {
    const char *const *texts;
    const char *line;
    size_t machine;
    size_t room;
    struct wanted wanted;
    struct slice tokens;
};

static struct patterns patterns;

static void lend_patterns(const char *const *texts)
{
    patterns.size = patterns.count = 0;
    for (; texts[patterns.count]; patterns.count++) {
        size_t length = strlen(texts[patterns.count]);
        memcpy(patterns.bytes + patterns.size, texts[patterns.count], length);
        patterns.lengths[patterns.count] = length;
        patterns.size += length;
    }
}

static struct slice bytes_of(const char *text)
{
    return (struct slice){ (const uint8_t *)text, strlen(text) };
}

static uint32_t call_cut(struct slice line, uint16_t *machine, size_t machine_size, uint8_t *tokens, size_t room,
                         uint8_t *answer, size_t answer_size)
{
    const uint8_t *lengths = lay(TABLE_SLOT, (const uint8_t *)patterns.lengths, patterns.count * sizeof(uint64_t));
    return desk_cut(lay(BOOK_SLOT, patterns.bytes, patterns.size), patterns.size, (const void *)lengths,
                    patterns.count, lay_slice(STRING_SLOT, line), line.length, machine, machine_size, tokens, room,
                    answer, answer_size);
}

/* How many cells the patterns' machine has, as a call that lends none is told; 0 where something else is refused. */
static size_t machine_cells(void)
{
    uint8_t answer[DESK_ANSWER_SIZE];
    size_t cells = 0;
    if (call_cut((struct slice)NONE, NULL, 0, NULL, 0, answer, sizeof answer) != DESK_ROOM)
        return 0;
    for (size_t i = 8; i > 0; i--)
        cells = cells << 8 | answer[i - 1];
    return cells;
}

/* Whether the call comes as far as the line, so that the machine is written. */
static bool along_the_line(const struct wanted *wanted)
{
    return wanted->number == DESK_DONE || wanted->number == DESK_NO_TOKEN
        || (wanted->number == DESK_ROOM && wanted->detail == DESK_CUT_ROOM_TOKENS);
}

/* Makes one call; what is written of the machine is looked at elsewhere, and its other cells must stay. */
static void cut_once(const struct cut_case *c, size_t cells, size_t answer_size)
{
    struct slice line = bytes_of(c->line);
    struct lent machine = lend_halves(c->machine), tokens = lend_bytes(c->room), answer = lend_bytes(answer_size);
    bool served = answer_size >= DESK_ANSWER_SIZE;
    if (served) {
        want_answer(&answer, &c->wanted);
        want_prefix(&tokens, c->tokens);
    }
    uint32_t number = call_cut(line, lent_halves(&machine), c->machine, lent_bytes(&tokens), c->room,
                               lent_bytes(&answer), answer_size);
    if (served && along_the_line(&c->wanted) && cells > 0)
        memcpy(wanted_halves(&machine), lent_halves(&machine), cells * sizeof(uint16_t));
    check(c->line, "cut number", number == (served ? c->wanted.number : DESK_ROOM));
    check_slice(c->line, "cut line", STRING_SLOT, line);
    check_buffer(c->line, "cut machine", &machine);
    check_buffer(c->line, "cut tokens", &tokens);
    check_buffer(c->line, "cut answer", &answer);
}

static void check_cut(const struct cut_case *c)
{
    static const size_t sizes[] = ANSWER_SIZES;
    lend_patterns(c->texts);
    size_t cells = machine_cells();
    for (size_t i = 0; i < 2 * COUNT(sizes); i++) {
        empty_is_null = i % 2 != 0;
        cut_once(c, cells, sizes[i / 2]);
    }
}

#define CUT(steps) { DESK_DONE, 0, 0, steps, 0 }
#define NO_TOKEN(place, steps) { DESK_NO_TOKEN, place, 0, steps, 0 }
#define FULL(place, steps) { DESK_ROOM, place, DESK_CUT_ROOM_TOKENS, steps, 0 }
#define SMALL(cells) { DESK_ROOM, cells, DESK_CUT_ROOM_MACHINE, 0, 0 }

static const struct cut_case cuts[] = {
    { HOUSE, order, STATES(18), 6, CUT(6), BYTES(0, 1, 2, 1, 3, 1) },
    { HOUSE, order, STATES(18) - 1, 6, SMALL(4626), NONE },
    { HOUSE, order, 0, 6, SMALL(4626), NONE },
    { HOUSE, order, STATES(18) + 1, 7, CUT(6), BYTES(0, 1, 2, 1, 3, 1) },
    { HOUSE, order, ANY, 5, FULL(26, 5), BYTES(0, 1, 2, 1, 3) },
    { HOUSE, order, ANY, 0, FULL(0, 0), NONE },
    { HOUSE, "restore St Anne in Ghent", ANY, 9, CUT(4), BYTES(0, 1, 2, 1) },
    { HOUSE, "restore St in Ghent", ANY, 9, CUT(4), BYTES(0, 1, 2, 1) },
    { HOUSE, "restore anne", ANY, 1, NO_TOKEN(8, 1), BYTES(0) },
    { HOUSE, "restore anne", ANY, 0, FULL(0, 0), NONE },
    { HOUSE, "restor Anne", ANY, 9, NO_TOKEN(0, 0), NONE },
    { HOUSE, "restore Anne inn", ANY, 9, NO_TOKEN(15, 3), BYTES(0, 1, 2) },
    { HOUSE, "  restoreAnne  ", ANY, 2, CUT(2), BYTES(0, 1) },
    { HOUSE, "   ", ANY, 0, CUT(0), NONE },
    { LETTERS, "restore Anne in Ghent", ANY, 9, CUT(4), BYTES(0, 1, 1, 1) },
    { WORDS, "restore Anne in Ghent inn", ANY, 9, CUT(5), BYTES(0, 3, 1, 3, 3) },
    { TEXTS("a", "ab", "abcd"), "ababcabcd", ANY, 9, NO_TOKEN(4, 2), BYTES(1, 1) },
    { TEXTS(" a", "a"), " a a", ANY, 9, CUT(2), BYTES(1, 1) },
    { TEXTS("a( a)*"), "a a  a", ANY, 9, CUT(2), BYTES(0, 0) },
    { TEXTS("a|b", "b"), "ab", ANY, 9, CUT(2), BYTES(0, 0) },
    { HOUSE, "restore\tAnne", ANY, 9, NO_TOKEN(7, 1), BYTES(0) },
    { HOUSE, "restore Anne\n", ANY, 9, NO_TOKEN(12, 2), BYTES(0, 1) },
    { HOUSE, "restore Th\xc3\xa9r\xc3\xa8se", ANY, 9, NO_TOKEN(10, 2), BYTES(0, 1) },
    { ACCENTS, "restore Sainte-Th\xc3\xa9r\xc3\xa8se in Ghent", ANY, 9, CUT(4), BYTES(0, 1, 2, 1) },
    { ACCENTS, "restore Th\xc3\xa9r\xc3\xa8se anne", ANY, 9, NO_TOKEN(18, 2), BYTES(0, 1) },
    { NO_PATTERN, "  x", 0, 0, NO_TOKEN(2, 0), NONE },
    { NO_PATTERN, "  x", 3, 3, NO_TOKEN(2, 0), NONE },
    { NO_PATTERN, "  ", 0, 0, CUT(0), NONE },
    { TEXTS("(a|b)*a(a|b)(a|b)(a|b)(a|b)(a|b)(a|b)(a|b)"), "", ANY, 0, CUT(0), NONE },
    { TEXTS("(a|b)*a(a|b)(a|b)(a|b)(a|b)(a|b)(a|b)(a|b)(a|b)"), "", ANY, 0, { DESK_STATES, 256, 0, 0, 0 }, NONE },
    { TEXTS("restore", "a**"), "restore", ANY, 9, { DESK_PATTERN, 2, 1, 0, 0 }, NONE },
};

/* One pattern of so many letters has a state for each and one for its end. */
static void check_letters(size_t letters, size_t cells, struct wanted wanted)
{
    char text[300];
    memset(text, 'a', letters);
    text[letters] = 0;
    check_cut(&(struct cut_case){ TEXTS(text), "", cells, 0, wanted, NONE });
}

static void check_most_states(void)
{
    check_letters(255, ANY, (struct wanted)CUT(0));
    check_letters(255, ANY - 1, (struct wanted)SMALL(65792));
    check_letters(256, ANY, (struct wanted){ DESK_STATES, 256, 0, 0, 0 });
    check_letters(257, ANY, (struct wanted){ DESK_LIMIT, 256, 0, 0, 0 });
}

/* Whether a row has just the arrows and the token wanted. */
static bool row_is(const uint16_t *cells, const struct row *row)
{
    uint16_t wanted[DESK_ROW_CELLS];
    for (size_t i = 0; i < DESK_ROW_CELLS; i++)
        wanted[i] = DESK_CUT_NONE;
    for (const struct arrow *arrow = row->arrows; arrow->next != NOWHERE; arrow++)
        for (size_t byte = arrow->from; byte <= arrow->to; byte++)
            wanted[byte] = arrow->next;
    wanted[DESK_ROW_CELLS - 1] = row->token;
    return memcmp(cells, wanted, sizeof wanted) == 0;
}

static uint16_t cells[DESK_MOST_MACHINE_CELLS];

/* Makes the machine of some patterns, with an empty line; gives its rows. */
static size_t make_machine(const char *const *texts)
{
    uint8_t answer[DESK_ANSWER_SIZE];
    lend_patterns(texts);
    uint32_t number = call_cut((struct slice)NONE, cells, COUNT(cells), NULL, 0, answer, sizeof answer);
    check(texts[0], "machine made", number == DESK_DONE);
    return machine_cells() / DESK_ROW_CELLS;
}

static void check_machines(void)
{
    for (const struct wanted_machine *machine = wanted_machines; machine->texts; machine++) {
        size_t rows = make_machine(machine->texts), row = 0;
        for (; machine->rows[row].arrows; row++)
            check(machine->texts[0], "row", row_is(cells + STATES(row), &machine->rows[row]));
        check(machine->texts[0], "number of rows", row == rows);
    }
}

/* A cut with the cells of a machine, of which so many are lent, and the places behind the tokens. */
struct with_case {
    const char *line;
    size_t machine;
    size_t room;
    size_t ends;
    struct wanted wanted;
    struct slice tokens;
    uint64_t places[6];
};

static void with_once(const struct with_case *c, size_t answer_size)
{
    struct slice line = bytes_of(c->line);
    struct lent tokens = lend_bytes(c->room), ends = lend_words(c->ends), answer = lend_bytes(answer_size);
    bool served = answer_size >= DESK_ANSWER_SIZE;
    size_t written = c->tokens.length < c->ends ? c->tokens.length : c->ends;
    if (served) {
        want_answer(&answer, &c->wanted);
        want_prefix(&tokens, c->tokens);
        if (written > 0)
            want_words(&ends, c->places, written);
    }
    const void *machine = lay(TABLE_SLOT, (const uint8_t *)cells, c->machine * sizeof cells[0]);
    uint32_t number = desk_cut_with(machine, c->machine, lay_slice(STRING_SLOT, line), line.length, lent_bytes(&tokens),
                                    c->room, lent_words(&ends), c->ends, lent_bytes(&answer), answer_size);
    check(c->line, "cut with number", number == (served ? c->wanted.number : DESK_ROOM));
    check(c->line, "cut with machine", laid_holds(TABLE_SLOT, (const uint8_t *)cells, c->machine * sizeof cells[0]));
    check_buffer(c->line, "cut with tokens", &tokens);
    check_buffer(c->line, "cut with ends", &ends);
    check_buffer(c->line, "cut with answer", &answer);
}

static void check_cut_with(const struct with_case *c)
{
    static const size_t sizes[] = ANSWER_SIZES;
    for (size_t i = 0; i < 2 * COUNT(sizes); i++) {
        empty_is_null = i % 2 != 0;
        with_once(c, sizes[i / 2]);
    }
}

/* Cuts with the house machine, and cells of 9 behind it. */
static const struct with_case with_house[] = {
    { order, ANY, 6, 6, CUT(6), BYTES(0, 1, 2, 1, 3, 1), { 7, 12, 15, 21, 25, 30 } },
    { order, STATES(18), 9, 9, CUT(6), BYTES(0, 1, 2, 1, 3, 1), { 7, 12, 15, 21, 25, 30 } },
    { order, STATES(18), 6, 2, CUT(6), BYTES(0, 1, 2, 1, 3, 1), { 7, 12 } },
    { order, STATES(18), 6, 0, CUT(6), BYTES(0, 1, 2, 1, 3, 1), { 0 } },
    { order, STATES(18), 5, 6, FULL(26, 5), BYTES(0, 1, 2, 1, 3), { 7, 12, 15, 21, 25 } },
    { "  restoreAnne  ", STATES(18), 9, 9, CUT(2), BYTES(0, 1), { 9, 13 } },
    { order, STATES(18) - 1, 6, 6, NO_TOKEN(0, 0), NONE, { 0 } },
    { "", 0, 0, 0, CUT(0), NONE, { 0 } },
};

/* Cuts with one row whose bytes all lead to one state. */
static void check_rows_of_one(void)
{
    static const struct {
        uint16_t next;
        uint16_t token;
        bool told;
    } rows[] = { { 0, 5, true }, { 0, 61, true }, { 0, 62, false }, { 1, 5, false } };
    for (size_t i = 0; i < COUNT(rows); i++) {
        const uint8_t token = (uint8_t)rows[i].token;
        struct with_case c = { " ab c", STATES(1), 9, 9, NO_TOKEN(1, 0), NONE, { 5 } };
        for (size_t byte = 0; byte < 256; byte++)
            cells[byte] = rows[i].next;
        cells[256] = rows[i].token;
        if (rows[i].told) {
            c.wanted = (struct wanted)CUT(1);
            c.tokens = (struct slice){ &token, 1 };
        }
        check_cut_with(&c);
    }
    check_cut_with(&(struct with_case){ " ab c", 0, 9, 9, NO_TOKEN(1, 0), NONE, { 0 } });
}

void check_cut_lines(void)
{
    for (size_t i = 0; i < COUNT(cuts); i++)
        check_cut(&cuts[i]);
    check_most_states();
    check_machines();
    size_t rows = make_machine(HOUSE);
    for (size_t i = STATES(rows); i < COUNT(cells); i++)
        cells[i] = 9;
    for (size_t i = 0; i < COUNT(with_house); i++)
        check_cut_with(&with_house[i]);
    check_rows_of_one();
}
