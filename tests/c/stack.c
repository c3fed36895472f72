#define _XOPEN_SOURCE 700
#define _DEFAULT_SOURCE

#include "desk.h"
#include "house.h"

#include <stdbool.h>
#include <stdio.h>
#include <stdlib.h>
#include <string.h>
#include <sys/mman.h>
#include <ucontext.h>
#include <unistd.h>

enum { STACK_SIZE = 1 << 24 };

static const uint64_t paint = UINT64_C(0xA5C3E1970F2D4B69);

static uint64_t *painted;
static ucontext_t outside, inside;
static void (*measured)(void);
static uint32_t number;

/* What the calls are lent; each measured input sets the book, the table and the strings it needs. */
static uint8_t book[DESK_MOST_BOOK_BYTES];
static size_t book_length;
static uint8_t table[DESK_MOST_TABLE_CELLS];
static size_t table_length;
static uint8_t tokens[DESK_MOST_CELLS], list[DESK_MOST_CELLS], stack[DESK_MOST_CELLS];
static size_t tokens_length, list_length;
static uint64_t first[DESK_MOST_NONTERMINALS], follow[DESK_MOST_NONTERMINALS], set[1], count[1];
static uint16_t machine[DESK_MOST_MACHINE_CELLS];
static uint8_t answer[DESK_ANSWER_SIZE];
static uint8_t sheet[DESK_MOST_SHEET_BYTES], read_book[DESK_MOST_BOOK_BYTES];

static const uint8_t growing[] = { 'G', 'R', 1, 1, 0, 2, 'P', 'R', 0, 2, N(0), 0, 'P', 'R', 0, 1, 0 };

static void call_nothing(void)
{
    number = DESK_DONE;
}

static void call_judge(void)
{
    number = desk_judge(book, book_length, answer, sizeof answer);
}

static void call_sets(void)
{
    number = desk_sets(book, book_length, first, DESK_MOST_NONTERMINALS, follow, DESK_MOST_NONTERMINALS,
                       answer, sizeof answer);
}

static void call_build(void)
{
    number = desk_build(book, book_length, first, DESK_MOST_NONTERMINALS, follow, DESK_MOST_NONTERMINALS,
                        table, sizeof table, answer, sizeof answer);
}

static void call_check(void)
{
    number = desk_check_table(book, book_length, table, table_length, answer, sizeof answer);
}

static void call_lookahead(void)
{
    number = desk_lookahead(book, book_length, 0, set, 1, count, 1, answer, sizeof answer);
}

static void call_first_of(void)
{
    static const uint8_t symbols[] = { N(0), 0, N(0) };
    number = desk_first_of(book, book_length, symbols, sizeof symbols, set, 1, count, 1, answer, sizeof answer);
}

static void call_run(void)
{
    number = desk_run(book, book_length, table, table_length, tokens, tokens_length, stack, sizeof stack,
                      list, sizeof list, answer, sizeof answer);
}

static void call_plain(void)
{
    number = desk_plain(book, book_length, answer, sizeof answer);
}

static void call_plain_run(void)
{
    number = desk_plain_run(book, book_length, tokens, tokens_length, stack, sizeof stack, list, sizeof list,
                            answer, sizeof answer);
}

/* Eight nested groups, the most that may be open. */
static void call_patterns(void)
{
    static const uint8_t nested[] = "((((((((a))))))))";
    static const uint64_t lengths[] = { sizeof nested - 1 };
    number = desk_patterns(nested, sizeof nested - 1, lengths, 1, answer, sizeof answer);
}

static void cut_by(const uint8_t *texts, const uint64_t *lengths, size_t count, const uint8_t *line, size_t length)
{
    size_t size = 0;
    for (size_t k = 0; k < count; k++)
        size += (size_t)lengths[k];
    number = desk_cut(texts, size, lengths, count, line, length, machine, DESK_MOST_MACHINE_CELLS,
                      tokens, sizeof tokens, answer, sizeof answer);
}

static void call_cut(void)
{
    static const uint8_t house[] = "restore(St )?[A-Z][a-z]+inand", line[] = "restore Anne in Ghent and Mary";
    static const uint64_t lengths[] = { 7, 17, 2, 3 };
    cut_by(house, lengths, 4, line, sizeof line - 1);
}

static void call_cut_nested(void)
{
    static const uint8_t nested[] = "((((((((a))))))))+", line[] = "aaaa aaaa";
    static const uint64_t lengths[] = { sizeof nested - 1 };
    cut_by(nested, lengths, 1, line, sizeof line - 1);
}

static void call_cut_with(void)
{
    static const uint8_t line[] = "aaaa aaaa";
    number = desk_cut_with(machine, DESK_MOST_MACHINE_CELLS, line, sizeof line - 1, tokens, sizeof tokens, NULL, 0,
                           answer, sizeof answer);
}

static void call_expand(void)
{
    number = desk_expand(book, book_length, list, list_length, stack, sizeof stack, tokens, sizeof tokens,
                         answer, sizeof answer);
}

static void call_write_sheet(void)
{
    number = desk_write_sheet(book, book_length, sheet, sizeof sheet, answer, sizeof answer);
}

/* The sheet that was written last, whose length its steps told. */
static size_t sheet_length;

static void call_read_sheet(void)
{
    number = desk_read_sheet(sheet, sheet_length, read_book, sizeof read_book, answer, sizeof answer);
}

/* A function, and the most bytes that it may take on x86-64. */
struct function {
    const char *name;
    void (*call)(void);
    size_t most;
};

static const struct function judge = { "desk_judge", call_judge, 3400 };
static const struct function sets = { "desk_sets", call_sets, 5350 };
static const struct function build = { "desk_build", call_build, 11350 };
static const struct function check = { "desk_check_table", call_check, 7700 };
static const struct function lookahead = { "desk_lookahead", call_lookahead, 5350 };
static const struct function first_of = { "desk_first_of", call_first_of, 4100 };
static const struct function run = { "desk_run", call_run, 4400 };
static const struct function expand = { "desk_expand", call_expand, 4600 };
static const struct function plain = { "desk_plain", call_plain, 3420 };
static const struct function plain_run = { "desk_plain_run", call_plain_run, 8720 };
static const struct function patterns = { "desk_patterns", call_patterns, 18300 };
static const struct function cut = { "desk_cut", call_cut, 32800 };
static const struct function cut_nested = { "desk_cut", call_cut_nested, 38700 };
static const struct function write_sheet = { "desk_write_sheet", call_write_sheet, 9800 };
static const struct function read_sheet = { "desk_read_sheet", call_read_sheet, 3400 };
static const struct function cut_with = { "desk_cut_with", call_cut_with, 1024 };

#ifdef __x86_64__
static const bool bounded = true;
#else
static const bool bounded = false;
#endif

static unsigned exceeded;

static void enter(void)
{
    measured();
}

static void give_up(const char *what)
{
    perror(what);
    exit(2);
}

/* Maps the stack to be painted, with a page below it that stops a call which goes too deep. */
static void map_stack(void)
{
    size_t page = (size_t)sysconf(_SC_PAGESIZE);
    uint8_t *memory = mmap(NULL, STACK_SIZE + page, PROT_READ | PROT_WRITE, MAP_PRIVATE | MAP_ANONYMOUS, -1, 0);
    if (memory == MAP_FAILED || mprotect(memory, page, PROT_NONE) != 0)
        give_up("mmap");
    painted = (uint64_t *)(void *)(memory + page);
}

/* Paints the stack, makes the call on it and returns how far from its top the paint is gone; what a call sets aside
   at the far end without writing to it is not seen. */
static size_t depth_of(void (*call)(void))
{
    size_t words = STACK_SIZE / sizeof *painted, untouched = 0;
    for (size_t i = 0; i < words; i++)
        painted[i] = paint;
    measured = call;
    if (getcontext(&inside) != 0)
        give_up("getcontext");
    inside.uc_stack.ss_sp = painted;
    inside.uc_stack.ss_size = STACK_SIZE;
    inside.uc_link = &outside;
    makecontext(&inside, enter, 0);
    if (swapcontext(&outside, &inside) != 0)
        give_up("swapcontext");
    while (untouched < words && painted[untouched] == paint)
        untouched++;
    return (words - untouched) * sizeof *painted;
}

/* Measures a call after it was made once, so that the loader has done its part, takes off what no call takes, and
   counts a function that takes more than it may. */
static void print_depth(const struct function *function, const char *input)
{
    function->call();
    size_t depth = depth_of(function->call);
    uint32_t answered = number;
    depth -= depth_of(call_nothing);
    printf("%-16s %-36s %8zu bytes, number %u\n", function->name, input, depth, (unsigned)answered);
    if (bounded && depth > function->most) {
        printf("%s takes more than %zu bytes\n", function->name, function->most);
        exceeded++;
    }
}

static void print_book_depths(const char *input)
{
    print_depth(&judge, input);
    print_depth(&sets, input);
    print_depth(&build, input);
    print_depth(&check, input);
    print_depth(&lookahead, input);
    print_depth(&first_of, input);
}

static void set_book(const uint8_t *bytes, size_t length)
{
    memcpy(book, bytes, length);
    book_length = length;
    table_length = DESK_TABLE_CELLS(book);
}

/* The longest book, in which each nonterminal begins with the next one. */
static void set_longest(void)
{
    const uint8_t header[] = { 'G', 'R', 62, 64, 0, 128 };
    set_book(header, sizeof header);
    book_length = sizeof book;
    for (size_t p = 0; p < 128; p++) {
        const uint8_t opening[] = { 'P', 'R', (uint8_t)(p / 2), DESK_MOST_SYMBOLS };
        uint8_t *record = book + sizeof header + 20 * p;
        memcpy(record, opening, sizeof opening);
        memset(record + sizeof opening, 61, DESK_MOST_SYMBOLS);
        if (p % 2 == 0 && p < 120)
            record[4] = (uint8_t)N(p / 2 + 1);
        else if (p < 120)
            record[4] = (uint8_t)(p / 2);
        else
            record[4] = (uint8_t)(60 + p % 2);
    }
    for (size_t i = 1; i <= 3; i++)
        book[sizeof header + 20 * 120 + 4 + i] = (uint8_t)N(60 + i);
}

/* The chain of 16 nonterminals, each twice the next one, that vanishes in 65,535 productions. */
static void set_tree(void)
{
    const uint8_t header[] = { 'G', 'R', 1, 16, 0, 16 };
    set_book(header, sizeof header);
    for (size_t n = 0; n < 16; n++) {
        const uint8_t record[] = { 'P', 'R', (uint8_t)n, n < 15 ? 2 : 0, (uint8_t)N(n + 1), (uint8_t)N(n + 1) };
        size_t size = n < 15 ? sizeof record : 4;
        memcpy(book + book_length, record, size);
        book_length += size;
    }
}

static void print_run_depths(void)
{
    static const uint8_t order[] = { 0, 1, 2, 1, 3, 1 };
    static const uint8_t list_of_order[] = { 0, 1, 2, 4, 1, 3, 5 };
    set_book(house_book, sizeof house_book);
    call_build();
    memcpy(tokens, order, sizeof order);
    tokens_length = sizeof order;
    print_depth(&run, "house, 6 tokens");
    memcpy(list, list_of_order, sizeof list_of_order);
    list_length = sizeof list_of_order;
    print_depth(&expand, "house, 7 productions");
    for (size_t i = 0; i < DESK_MOST_TOKENS; i += 2) {
        tokens[i] = i == 0 ? 0 : 3;
        tokens[i + 1] = 1;
    }
    tokens_length = DESK_MOST_TOKENS;
    print_depth(&run, "house, 4096 tokens");
    set_tree();
    call_build();
    tokens_length = 0;
    print_depth(&run, "tree, 65535 productions");
    list_length = DESK_MOST_CELLS;
    print_depth(&expand, "tree, 65535 productions");
    set_book(growing, sizeof growing);
    memset(list, 0, sizeof list);
    list[sizeof list - 1] = 1;
    print_depth(&expand, "65535 productions, stack and tokens");
}

static void print_sheet_depths(const char *input)
{
    print_depth(&write_sheet, input);
    sheet_length = (size_t)answer[16] | (size_t)answer[17] << 8;
    print_depth(&read_sheet, input);
}

/* The largest plain book: two productions of sixteen symbols for each nonterminal, which start with tokens of their own. */
static void set_largest_plain(void)
{
    const uint8_t header[] = { 'G', 'R', 62, 64, 0, 128 };
    set_book(header, sizeof header);
    book_length = sizeof book;
    for (size_t p = 0; p < 128; p++) {
        const uint8_t opening[] = { 'P', 'R', (uint8_t)(p / 2), DESK_MOST_SYMBOLS, (uint8_t)(p % 2) };
        uint8_t *record = book + sizeof header + 20 * p;
        memset(record, 61, 20);
        memcpy(record, opening, sizeof opening);
        if (p % 2 == 0 && p < 126)
            record[5] = (uint8_t)N(p / 2 + 1);
    }
}

static void print_profile_depths(void)
{
    static const uint8_t small[] = { 'G', 'R', 3, 2, 0, 3, 'P', 'R', 0, 2, 0, N(1), 'P', 'R', 1, 1, 1,
                                     'P', 'R', 1, 2, 2, N(0) };
    static const uint8_t taken[] = { 0, 2, 0, 2, 0, 1 }, refused[] = { 0, 0 };
    set_book(small, sizeof small);
    print_depth(&plain, "small book");
    memcpy(tokens, taken, sizeof taken);
    tokens_length = sizeof taken;
    print_depth(&plain_run, "small book, 6 tokens");
    memcpy(tokens, refused, sizeof refused);
    tokens_length = sizeof refused;
    print_depth(&plain_run, "small book, a syntax stop");
    set_largest_plain();
    print_depth(&plain, "largest plain book");
    memset(tokens, 61, DESK_MOST_TOKENS);
    tokens[0] = 1;
    tokens_length = DESK_MOST_SYMBOLS;
    print_depth(&plain_run, "largest plain book, 16 tokens");
}

static void print_line_depths(void)
{
    print_depth(&patterns, "eight nested groups");
    print_depth(&cut, "house");
    print_depth(&cut_nested, "eight nested groups");
    print_depth(&cut_with, "one pattern");
}

int main(void)
{
    map_stack();
    set_book(house_book, sizeof house_book);
    print_book_depths("house");
    print_sheet_depths("house");
    set_longest();
    print_book_depths("longest book");
    print_sheet_depths("longest book");
    print_run_depths();
    print_profile_depths();
    print_line_depths();
    return exceeded == 0 ? 0 : 1;
}
