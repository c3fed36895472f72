#include "desk.h"
#include "house.h"
#include "plain.h"
#include "plain_sheets.h"
#include "source.h"
#include "timing.h"

#include <stdbool.h>
#include <stdlib.h>
#include <string.h>

enum { STRINGS = 256, LONG_STRING = 4000, SHORT_STRING = 6, STACK = 1024, LIST = 16384 };

/* A grammar with strings of one length, their production lists, and how often a round goes through the strings. */
struct workload {
    const char *name;
    uint8_t book[DESK_MOST_BOOK_BYTES];
    size_t book_length;
    uint8_t table[DESK_MOST_TABLE_CELLS];
    size_t table_length;
    uint8_t strings[STRINGS][LONG_STRING];
    size_t length;
    uint8_t lists[STRINGS][LIST];
    size_t listed[STRINGS];
    size_t stack;
    size_t times;
    int (*bison)(struct source *source);
};

static const struct workload *work;
static uint8_t stack[STACK], list[LIST], tokens[LONG_STRING], table[DESK_MOST_TABLE_CELLS], answer[DESK_ANSWER_SIZE];
static uint64_t first[64], follow[64];

/* Tokens { } [ ] : , string number true false null; nonterminals value, members, more members, pair, elements, more. */
static const uint8_t json_book[] = {
    'G', 'R', 11, 6, 0, 16,
    'P', 'R', 0, 3, 0, N(1), 1,
    'P', 'R', 0, 3, 2, N(4), 3,
    'P', 'R', 0, 1, 6,
    'P', 'R', 0, 1, 7,
    'P', 'R', 0, 1, 8,
    'P', 'R', 0, 1, 9,
    'P', 'R', 0, 1, 10,
    'P', 'R', 1, 2, N(3), N(2),
    'P', 'R', 1, 0,
    'P', 'R', 2, 3, 5, N(3), N(2),
    'P', 'R', 2, 0,
    'P', 'R', 3, 3, 6, 4, N(0),
    'P', 'R', 4, 2, N(0), N(5),
    'P', 'R', 4, 0,
    'P', 'R', 5, 3, 5, N(0), N(5),
    'P', 'R', 5, 0,
};

/* S -> a B, S -> b B, B -> c, B -> d S, which is plain. */
static const uint8_t plain_book[] = {
    'G', 'R', 4, 2, 0, 4,
    'P', 'R', 0, 2, 0, N(1),
    'P', 'R', 0, 2, 1, N(1),
    'P', 'R', 1, 1, 2,
    'P', 'R', 1, 2, 3, N(0),
};

static size_t pick(size_t low, size_t high)
{
    static uint64_t state = 88172645463325252;
    state ^= state << 13;
    state ^= state >> 7;
    state ^= state << 17;
    return low + (size_t)((state >> 11) % (high - low + 1));
}

static uint8_t *put(uint8_t *at, uint8_t token)
{
    *at = token;
    return at + 1;
}

/* A name, then "in" and "and" with further names by chance, until the string has its length, which is even. */
static void make_house_string(uint8_t *at, size_t length)
{
    const uint8_t *end = at + length;
    bool within = false;
    for (at = put(put(at, 0), 1); at < end; at = put(put(at, within ? 2 : 3), 1))
        within = !within && pick(0, 1) == 0;
}

static uint8_t *make_json_value(uint8_t *at, size_t length);

/* A part of what is left, of at least `least` tokens, so that a comma and another part fit or nothing is left. */
static size_t pick_part(size_t left, size_t least)
{
    size_t most = left < 60 ? left : pick(0, 9) == 0 ? 60 : 12;
    size_t part = pick(least, most < least ? least : most);
    return left - part == 0 || left - part > least ? part : left;
}

static uint8_t *make_json_array(uint8_t *at, size_t length)
{
    at = put(at, 2);
    for (size_t left = length - 2; left > 0;) {
        size_t part = pick_part(left, 1);
        at = make_json_value(at, part);
        left -= part;
        if (left > 0) {
            at = put(at, 5);
            left--;
        }
    }
    return put(at, 3);
}

static uint8_t *make_json_object(uint8_t *at, size_t length)
{
    at = put(at, 0);
    for (size_t left = length - 2; left > 0;) {
        size_t part = pick_part(left, 3);
        at = put(put(at, 6), 4);
        at = make_json_value(at, part - 2);
        left -= part;
        if (left > 0) {
            at = put(at, 5);
            left--;
        }
    }
    return put(at, 1);
}

static uint8_t *make_json_value(uint8_t *at, size_t length)
{
    if (length == 1)
        return put(at, (uint8_t)pick(6, 10));
    if (length == 2 || (length >= 5 && pick(0, 1) == 0))
        return make_json_object(at, length);
    return make_json_array(at, length);
}

static void make_json_string(uint8_t *at, size_t length)
{
    make_json_value(at, length);
}

/* a or b by chance, then d, and so on to a last c; the length is even. */
static void make_plain_string(uint8_t *at, size_t length)
{
    const uint8_t *end = at + length;
    while (at < end) {
        at = put(at, (uint8_t)pick(0, 1));
        at = put(at, at + 1 < end ? 3 : 2);
    }
}

/* Makes the table and the strings of a workload, and their lists with the plain run. */
static struct workload *make_workload(const char *name, const uint8_t *book, size_t book_length,
                                      void make_string(uint8_t *at, size_t length), size_t length,
                                      int bison(struct source *source))
{
    struct workload *made = calloc(1, sizeof *made);
    if (!made)
        fail("no memory");
    made->name = name;
    memcpy(made->book, book, book_length);
    made->book_length = book_length;
    made->table_length = DESK_TABLE_CELLS(book);
    made->length = length;
    made->stack = length == SHORT_STRING ? 16 : STACK;
    made->times = length == SHORT_STRING ? 40 : 1;
    made->bison = bison;
    if (plain_build(book, book_length, first, 64, follow, 64, made->table, sizeof made->table, answer, sizeof answer))
        fail("a table has a conflict");
    for (size_t i = 0; i < STRINGS; i++) {
        make_string(made->strings[i], length);
        if (plain_run(book, book_length, made->table, made->table_length, made->strings[i], length, stack, made->stack,
                      made->lists[i], LIST, answer, sizeof answer))
            fail("a string is not derived");
        made->listed[i] = (answer[16] | (size_t)answer[17] << 8) - length;
    }
    return made;
}

static void put_record(uint8_t *record, size_t left)
{
    const uint8_t opening[] = { 'P', 'R', (uint8_t)left, DESK_MOST_SYMBOLS };
    memcpy(record, opening, sizeof opening);
    for (size_t i = 0; i < DESK_MOST_SYMBOLS; i++)
        record[4 + i] = (uint8_t)((left * 7 + i) % 62);
}

/* The largest book without a conflict: each nonterminal begins with the next one or with a token of its own, so
   that sets flow through all of them; with records in rising order they flow a step in a pass, else at once. */
static void make_largest(uint8_t *book, bool rising)
{
    const uint8_t header[] = { 'G', 'R', 62, 64, 0, 128 };
    memcpy(book, header, sizeof header);
    for (size_t n = 0; n < 64; n++) {
        uint8_t *record = book + sizeof header + (rising ? n : 63 - n) * 40;
        put_record(record, n);
        put_record(record + 20, n);
        record[4] = n < 60 ? (uint8_t)N(n + 1) : 60;
        record[24] = n < 60 ? (uint8_t)n : 61;
        if (n > 0 && n < 60)
            record[39] = (uint8_t)N(n - 1);
        for (size_t i = 1; n == 60 && i <= 3; i++)
            record[4 + i] = (uint8_t)N(60 + i);
    }
}

static struct workload *make_book(const char *name, const uint8_t *book, size_t length, size_t times)
{
    struct workload *made = calloc(1, sizeof *made);
    if (!made)
        fail("no memory");
    made->name = name;
    memcpy(made->book, book, length);
    made->book_length = length;
    made->times = times;
    made->table_length = DESK_TABLE_CELLS(book);
    if (plain_build(book, length, first, 64, follow, 64, made->table, sizeof made->table, answer, sizeof answer))
        fail("a table has a conflict");
    return made;
}

#define EACH_STRING(call) \
    for (size_t turn = 0; turn < work->times; turn++) \
        for (size_t i = 0; i < STRINGS; i++) \
            failures += (call) != 0

#define EACH_TIME(call) \
    for (size_t turn = 0; turn < work->times; turn++) \
        failures += (call) != 0

#define BOOK work->book, work->book_length
#define RUN_ARGUMENTS BOOK, work->table, work->table_length, work->strings[i], work->length, stack, work->stack, \
                      list, sizeof list, answer, sizeof answer
#define PLAIN_RUN_ARGUMENTS BOOK, work->strings[i], work->length, stack, work->stack, list, sizeof list, \
                            answer, sizeof answer
#define EXPAND_ARGUMENTS BOOK, work->lists[i], work->listed[i], stack, work->stack, tokens, sizeof tokens, \
                         answer, sizeof answer
#define SETS_ARGUMENTS BOOK, first, 64, follow, 64, answer, sizeof answer
#define CHECK_ARGUMENTS BOOK, work->table, work->table_length, answer, sizeof answer
#define BUILD_ARGUMENTS BOOK, first, 64, follow, 64, table, sizeof table, answer, sizeof answer

static void run_desk(void) { EACH_STRING(desk_run(RUN_ARGUMENTS)); }
static void run_plain(void) { EACH_STRING(plain_run(RUN_ARGUMENTS)); }
static void plain_run_desk(void) { EACH_STRING(desk_plain_run(PLAIN_RUN_ARGUMENTS)); }
static void plain_run_plain(void) { EACH_STRING(plain_profile_run(PLAIN_RUN_ARGUMENTS)); }
static void expand_desk(void) { EACH_STRING(desk_expand(EXPAND_ARGUMENTS)); }
static void expand_plain(void) { EACH_STRING(plain_expand(EXPAND_ARGUMENTS)); }
static void judge_desk(void) { EACH_TIME(desk_judge(BOOK, answer, sizeof answer)); }
static void judge_plain(void) { EACH_TIME(plain_judge(BOOK, answer, sizeof answer)); }
static void sets_desk(void) { EACH_TIME(desk_sets(SETS_ARGUMENTS)); }
static void sets_plain(void) { EACH_TIME(plain_sets(SETS_ARGUMENTS)); }
static void build_desk(void) { EACH_TIME(desk_build(BUILD_ARGUMENTS)); }
static void check_desk(void) { EACH_TIME(desk_check_table(CHECK_ARGUMENTS)); }
static void check_plain(void) { EACH_TIME(plain_check_table(CHECK_ARGUMENTS)); }
static void build_plain(void) { EACH_TIME(plain_build(BUILD_ARGUMENTS)); }

/* The sheet of the workload's book, and room to write one and to read its book. */
static uint8_t sheet[DESK_MOST_SHEET_BYTES], written[DESK_MOST_SHEET_BYTES], read_book[DESK_MOST_BOOK_BYTES];
static size_t sheet_length;

#define WRITE_ARGUMENTS BOOK, written, sizeof written, answer, sizeof answer
#define READ_ARGUMENTS sheet, sheet_length, read_book, sizeof read_book, answer, sizeof answer

static void write_desk(void) { EACH_TIME(desk_write_sheet(WRITE_ARGUMENTS)); }
static void write_plain(void) { EACH_TIME(plain_write_sheet(WRITE_ARGUMENTS)); }
static void read_desk(void) { EACH_TIME(desk_read_sheet(READ_ARGUMENTS)); }
static void read_plain(void) { EACH_TIME(plain_read_sheet(READ_ARGUMENTS)); }

#ifdef WITH_BISON
static int parse(size_t i)
{
    struct source source = { work->strings[i], work->length, 0, list, 0 };
    return work->bison(&source);
}

static void run_bison(void) { EACH_STRING(parse(i)); }
static job *const bison_job = run_bison;
#define HOUSE_PARSER house_parse
#define JSON_PARSER json_parse
#else
static job *const bison_job = NULL;
#define HOUSE_PARSER NULL
#define JSON_PARSER NULL
#endif

void clear_buffers(void)
{
    memset(stack, 0, sizeof stack);
    memset(list, 0, sizeof list);
    memset(tokens, 0, sizeof tokens);
    memset(table, 0, sizeof table);
    memset(answer, 0, sizeof answer);
    memset(first, 0, sizeof first);
    memset(follow, 0, sizeof follow);
    memset(written, 0, sizeof written);
    memset(read_book, 0, sizeof read_book);
}

/* Prints a figure of the workload, with bison's parser as the third where it is timed. */
static void print_work(const char *what, const struct workload *workload, const char *unit, size_t units, job *desk,
                       job *plain, job *bison)
{
    work = workload;
    print_figure(&(struct figure){ what, work->name, unit, (double)(units * work->times), desk, plain, bison, "bison" });
}

static void print_string_figures(struct workload *workload)
{
    bool calls = workload->length == SHORT_STRING;
    size_t units = STRINGS * (calls ? 1 : workload->length);
    const char *unit = calls ? "call" : "token";
    print_work("run", workload, unit, units, run_desk, run_plain, bison_job);
    print_work("expand", workload, unit, units, expand_desk, expand_plain, NULL);
    free(workload);
}

/* A run on a plain book alone, with desk_run on the built table as the third. */
static void print_plain_figures(struct workload *workload)
{
    bool calls = workload->length == SHORT_STRING;
    double units = (double)(STRINGS * (calls ? 1 : workload->length) * workload->times);
    work = workload;
    print_figure(&(struct figure){ "plain run", work->name, calls ? "call" : "token", units, plain_run_desk,
                                   plain_run_plain, run_desk, "desk_run" });
    free(workload);
}

static void print_book_figures(struct workload *workload)
{
    print_work("judge", workload, "call", 1, judge_desk, judge_plain, NULL);
    print_work("sets", workload, "call", 1, sets_desk, sets_plain, NULL);
    print_work("build", workload, "call", 1, build_desk, build_plain, NULL);
    print_figure(&(struct figure){ "check", work->name, "call", (double)work->times, check_desk, check_plain,
                                   build_desk, "build" });
    free(workload);
}

/* The sheet of a book, written and read. */
static void print_sheet_figures(struct workload *workload)
{
    plain_write_sheet(workload->book, workload->book_length, sheet, sizeof sheet, answer, sizeof answer);
    sheet_length = (size_t)answer[16] | (size_t)answer[17] << 8;
    print_work("write sheet", workload, "call", 1, write_desk, write_plain, NULL);
    print_work("read sheet", workload, "call", 1, read_desk, read_plain, NULL);
    free(workload);
}

/* Usage: bench [ROUNDS]. */
int main(int argc, char **argv)
{
    static uint8_t largest[DESK_MOST_BOOK_BYTES];
    read_rounds(argc, argv);
    print_string_figures(make_workload("house, 4000 tokens", house_book, sizeof house_book, make_house_string,
                                       LONG_STRING, HOUSE_PARSER));
    print_string_figures(make_workload("json, 4000 tokens", json_book, sizeof json_book, make_json_string,
                                       LONG_STRING, JSON_PARSER));
    print_string_figures(make_workload("house, 6 tokens", house_book, sizeof house_book, make_house_string,
                                       SHORT_STRING, HOUSE_PARSER));
    print_string_figures(make_workload("json, 6 tokens", json_book, sizeof json_book, make_json_string,
                                       SHORT_STRING, JSON_PARSER));
    print_plain_figures(make_workload("plain, 4000 tokens", plain_book, sizeof plain_book, make_plain_string,
                                      LONG_STRING, NULL));
    print_plain_figures(make_workload("plain, 6 tokens", plain_book, sizeof plain_book, make_plain_string,
                                      SHORT_STRING, NULL));
    print_book_figures(make_book("house", house_book, sizeof house_book, 10000));
    print_book_figures(make_book("json", json_book, sizeof json_book, 5000));
    make_largest(largest, false);
    print_book_figures(make_book("largest, records falling", largest, sizeof largest, 50));
    make_largest(largest, true);
    print_book_figures(make_book("largest, records rising", largest, sizeof largest, 50));
    print_sheet_figures(make_book("house", house_book, sizeof house_book, 10000));
    print_sheet_figures(make_book("largest", largest, sizeof largest, 200));
    if (failures > 0)
        fail("a call was refused");
    return 0;
}
