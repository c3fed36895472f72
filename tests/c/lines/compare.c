#include "cases.h"

#include "desk.h"
#include "differential/pick.h"
#include "inputs.h"
#include "lent.h"
#include "plain_lines.h"

#include <stdio.h>
#include <string.h>

enum { MOST_SHOWN = 10, NUMBERS = 17 };
enum function { PATTERNS, CUT, CUT_WITH, FUNCTIONS };

static const uint64_t seed = 20260215;
static const char *const names[FUNCTIONS] = { "patterns", "cut", "cut_with" };
static const unsigned possible[FUNCTIONS] = { 0x04091, 0x1c091, 0x08081 };
static const char marks[] = "[]()|*+?\\-";

unsigned long differences;
static unsigned long case_number, met[FUNCTIONS][NUMBERS], details[FUNCTIONS][3], places[sizeof marks], by_meaning;

static void show_difference(enum function function, uint32_t number, uint32_t wanted, const char *what)
{
    differences++;
    if (differences <= MOST_SHOWN)
        printf("case %lu: %s: %s differs: number %u, plain %u; %zu patterns of %zu bytes, line of %zu\n", case_number,
               names[function], what, (unsigned)number, (unsigned)wanted, in.count, in.patterns_length, in.line_length);
}

static uint64_t word_at(const uint8_t *bytes)
{
    uint64_t word = 0;
    for (size_t i = 8; i > 0; i--)
        word = word << 8 | bytes[i - 1];
    return word;
}

/* Counts at which special byte a pattern was refused, the last cell for its end. */
static void count_place(const uint8_t *answer)
{
    uint64_t place = word_at(answer), pattern = word_at(answer + 8);
    size_t from = 0, length = 0;
    for (uint64_t k = 0; k <= pattern; k++) {
        from += length;
        length = in.lengths[k] < in.patterns_length - from ? (size_t)in.lengths[k] : in.patterns_length - from;
    }
    places[sizeof marks - 1] += place == length;
    for (size_t i = 0; i < sizeof marks - 1 && place < length; i++)
        places[i] += in.patterns[from + place] == (uint8_t)marks[i];
}

static void count_case(enum function function, uint32_t number, const struct lent *answer)
{
    met[function][number]++;
    if (answer->bytes < DESK_ANSWER_SIZE)
        return;
    if (number == DESK_ROOM)
        details[function][word_at(wanted_bytes(answer) + 8)]++;
    if (number == DESK_PATTERN)
        count_place(wanted_bytes(answer));
}

/* Compares what the two calls returned and left behind, takes the buffers back and counts the case. */
static void compare(enum function function, uint32_t number, uint32_t wanted, struct lent *lent, size_t count)
{
    static const char *const buffers[] = { "answer", "buffer 1", "buffer 2" };
    const char *what = number == wanted ? NULL : "number";
    for (size_t i = 0; i < count && !what; i++)
        if (!lent_holds(&lent[i]))
            what = buffers[i];
    if (what)
        show_difference(function, number, wanted, what);
    count_case(function, wanted, &lent[0]);
    for (size_t i = 0; i < count; i++)
        take_back(&lent[i]);
}

static size_t answer_size(void)
{
    if (chance(92))
        return DESK_ANSWER_SIZE;
    return chance(50) ? pick(0, DESK_ANSWER_SIZE - 1) : pick(DESK_ANSWER_SIZE + 1, DESK_ANSWER_SIZE + 16);
}

static const uint8_t *patterns(void)
{
    return lay(BOOK_SLOT, in.patterns, in.patterns_length);
}

static const uint64_t *lengths(void)
{
    const uint8_t *bytes = (const uint8_t *)in.lengths;
    return (const uint64_t *)(const void *)lay(TABLE_SLOT, bytes, in.count * sizeof in.lengths[0]);
}

static const uint8_t *line(void)
{
    return lay(STRING_SLOT, in.line, in.line_length);
}

static void compare_patterns(void)
{
    size_t size = answer_size();
    struct lent lent[] = { lend_bytes(size) };
    uint32_t wanted = plain_patterns(patterns(), in.patterns_length, lengths(), in.count, wanted_bytes(&lent[0]), size);
    uint32_t number = desk_patterns(patterns(), in.patterns_length, lengths(), in.count, lent_bytes(&lent[0]), size);
    compare(PATTERNS, number, wanted, lent, 1);
}

/* The token that the rest of the line begins with, by the meaning of the patterns alone, or -1. */
static int token_by_meaning(size_t at, size_t *length)
{
    for (size_t n = in.line_length - at; n > 0; n--)
        for (size_t k = 0; k < in.count; k++)
            if (beginnings(in.tree[k], in.line + at, n) >> n & 1) {
                *length = n;
                return (int)k;
            }
    return -1;
}

/* Whether a cut of a short line says what the meaning of the patterns says, token by token. */
static bool means_the_same(uint32_t number, const uint8_t *answer, const uint8_t *tokens, size_t room)
{
    size_t at = 0, count = 0, length = 0;
    for (;; at += length) {
        while (at < in.line_length && in.line[at] == ' ')
            at++;
        if (at == in.line_length)
            return number == DESK_DONE && word_at(answer + 16) == count;
        int token = token_by_meaning(at, &length);
        if (token < 0 || count == room)
            return number == (token < 0 ? (uint32_t)DESK_NO_TOKEN : DESK_ROOM) && word_at(answer) == at
                && word_at(answer + 16) == count;
        if (tokens[count++] != token)
            return false;
    }
}

static size_t near(size_t need)
{
    switch (pick(0, 9)) {
    case 0:
        return need > 0 ? need - 1 : 0;
    case 1:
        return need + pick(1, 9);
    case 2:
        return pick(0, need);
    default:
        return need;
    }
}

static size_t tokens_needed(void)
{
    uint8_t answer[DESK_ANSWER_SIZE], tokens[LONGEST_LINE];
    plain_cut_with(in.machine, in.machine_length, in.line, in.line_length, tokens, sizeof tokens, NULL, 0, answer,
                   sizeof answer);
    return (size_t)word_at(answer + 16);
}

/* Whether an answer speaks of the line, and not of the patterns or the machine. */
static bool along_the_line(uint32_t number, const uint8_t *answer)
{
    return number == DESK_DONE || number == DESK_NO_TOKEN
        || (number == DESK_ROOM && word_at(answer + 8) == DESK_CUT_ROOM_TOKENS);
}

static void compare_cuts(void)
{
    make_line();
    make_machine_cells();
    size_t size = answer_size(), cells = near(in.machine_length), room = near(tokens_needed());
    struct lent lent[] = { lend_bytes(size), lend_halves(cells), lend_bytes(room) };
    uint32_t wanted = plain_cut(patterns(), in.patterns_length, lengths(), in.count, line(), in.line_length,
                                wanted_halves(&lent[1]), cells, wanted_bytes(&lent[2]), room,
                                wanted_bytes(&lent[0]), size);
    uint32_t number = desk_cut(patterns(), in.patterns_length, lengths(), in.count, line(), in.line_length,
                               lent_halves(&lent[1]), cells, lent_bytes(&lent[2]), room, lent_bytes(&lent[0]), size);
    if (size >= DESK_ANSWER_SIZE && in.from_trees && in.line_length <= LONGEST_MATCHED
        && along_the_line(number, lent_bytes(&lent[0]))) {
        by_meaning++;
        if (!means_the_same(number, lent_bytes(&lent[0]), lent_bytes(&lent[2]), room))
            show_difference(CUT, number, wanted, "the patterns' own meaning");
    }
    compare(CUT, number, wanted, lent, 3);
}

static void compare_cuts_with(void)
{
    make_line();
    make_machine_cells();
    size_t needed = tokens_needed();
    size_t size = answer_size(), room = near(needed), places = chance(20) ? 0 : near(needed);
    const uint16_t *cells = (const uint16_t *)(const void *)lay(TABLE_SLOT, (const uint8_t *)in.machine,
                                                                in.machine_length * sizeof in.machine[0]);
    struct lent lent[] = { lend_bytes(size), lend_bytes(room), lend_words(places) };
    uint32_t wanted = plain_cut_with(cells, in.machine_length, line(), in.line_length, wanted_bytes(&lent[1]), room,
                                     wanted_words(&lent[2]), places, wanted_bytes(&lent[0]), size);
    uint32_t number = desk_cut_with(cells, in.machine_length, line(), in.line_length, lent_bytes(&lent[1]), room,
                                    lent_words(&lent[2]), places, lent_bytes(&lent[0]), size);
    compare(CUT_WITH, number, wanted, lent, 3);
}

void compare_case(unsigned long number)
{
    case_number = number;
    seed_random(seed * UINT64_C(1000003) + case_number);
    empty_is_null = chance(50);
    make_patterns();
    size_t kind = pick(0, 99);
    if (kind < 50)
        compare_patterns();
    else if (kind < 80)
        compare_cuts();
    else
        compare_cuts_with();
}

unsigned print_counts(void)
{
    unsigned missing = 0;
    for (size_t function = 0; function < FUNCTIONS; function++) {
        printf("%-10s", names[function]);
        for (size_t number = 0; number < NUMBERS; number++)
            if (possible[function] >> number & 1) {
                printf("%4zu:%7lu", number, met[function][number]);
                missing += met[function][number] == 0;
            }
        printf("   room 1:%6lu 2:%6lu\n", details[function][1], details[function][2]);
    }
    missing += (details[CUT][1] == 0) + (details[CUT][2] == 0) + (details[CUT_WITH][2] == 0) + (by_meaning == 0);
    printf("malformed at");
    for (size_t i = 0; i < sizeof marks - 1; i++) {
        printf("  %c%6lu", marks[i], places[i]);
        missing += places[i] == 0 && marks[i] != '\\';
    }
    printf("  at its end%6lu\n", places[sizeof marks - 1]);
    printf("cuts compared with the patterns' own meaning: %lu\n", by_meaning);
    return missing + (places[sizeof marks - 1] == 0);
}
