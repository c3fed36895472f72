#include "calls.h"

/* Makes a call with every kind of answer buffer and of empty slice. */
static void try_answers(void call(const void *c, size_t answer_size), const void *c)
{
    static const size_t sizes[] = ANSWER_SIZES;
    for (size_t i = 0; i < 2 * COUNT(sizes); i++) {
        empty_is_null = i % 2 != 0;
        call(c, sizes[i / 2]);
    }
}

/* Says what the answer must hold, if it is long enough for the call to be served at all. */
static bool want_served(const struct lent *answer, const struct wanted *wanted)
{
    bool served = answer->bytes >= DESK_ANSWER_SIZE;
    if (served)
        want_answer(answer, wanted);
    return served;
}

static void check_number(const char *name, const char *what, uint32_t number, bool served, const struct wanted *wanted)
{
    check(name, what, number == (served ? wanted->number : DESK_ROOM));
}

static void run_once(const void *run_case, size_t answer_size)
{
    const struct run_case *c = run_case;
    struct slice book = c->grammar->book, table = c->grammar->table;
    struct lent stack = lend_bytes(c->stack), list = lend_bytes(c->list), answer = lend_bytes(answer_size);
    bool served = want_served(&answer, &c->wanted);
    if (served) {
        want_depth(&answer, c->depth);
        want_prefix(&list, c->listed);
    }
    if (served && c->depth > 0)
        want_zeros(&stack);
    uint32_t number = desk_run(lay_slice(BOOK_SLOT, book), book.length, lay_slice(TABLE_SLOT, table), table.length,
                               lay_slice(STRING_SLOT, c->tokens), c->tokens.length,
                               lent_bytes(&stack), c->stack, lent_bytes(&list), c->list,
                               lent_bytes(&answer), answer_size);
    check_number(c->name, "run number", number, served, &c->wanted);
    check_slice(c->name, "run book", BOOK_SLOT, book);
    check_slice(c->name, "run table", TABLE_SLOT, table);
    check_slice(c->name, "run tokens", STRING_SLOT, c->tokens);
    check_buffer(c->name, "run stack", &stack);
    check_buffer(c->name, "run list", &list);
    check_buffer(c->name, "run answer", &answer);
}

void check_run(const struct run_case *c)
{
    try_answers(run_once, c);
}

static void slr_once(const void *slr_case, size_t answer_size)
{
    const struct slr_case *c = slr_case;
    struct slice table = { (const uint8_t *)c->table, c->cells * sizeof *c->table };
    struct lent stack = lend_bytes(c->stack), list = lend_bytes(c->list), answer = lend_bytes(answer_size);
    bool served = want_served(&answer, &c->wanted);
    if (served) {
        want_depth(&answer, c->depth);
        want_prefix(&list, c->listed);
    }
    if (served && c->depth > 0)
        want_zeros(&stack);
    uint32_t number = desk_slr_run(lay_slice(BOOK_SLOT, c->book), c->book.length,
                                   (const uint16_t *)(const void *)lay_slice(TABLE_SLOT, table), c->cells,
                                   lay_slice(STRING_SLOT, c->tokens), c->tokens.length,
                                   lent_bytes(&stack), c->stack, lent_bytes(&list), c->list,
                                   lent_bytes(&answer), answer_size);
    check_number(c->name, "bottom-up number", number, served, &c->wanted);
    check_slice(c->name, "bottom-up book", BOOK_SLOT, c->book);
    check_slice(c->name, "bottom-up table", TABLE_SLOT, table);
    check_slice(c->name, "bottom-up tokens", STRING_SLOT, c->tokens);
    check_buffer(c->name, "bottom-up stack", &stack);
    check_buffer(c->name, "bottom-up list", &list);
    check_buffer(c->name, "bottom-up answer", &answer);
}

void check_slr_run(const struct slr_case *c)
{
    try_answers(slr_once, c);
}

static void expand_once(const void *expand_case, size_t answer_size)
{
    const struct expand_case *c = expand_case;
    struct slice book = c->grammar->book;
    struct lent stack = lend_bytes(c->stack), tokens = lend_bytes(c->tokens), answer = lend_bytes(answer_size);
    bool served = want_served(&answer, &c->wanted);
    if (served) {
        want_depth(&answer, c->depth);
        want_prefix(&tokens, c->written);
    }
    if (served && c->depth > 0)
        want_zeros(&stack);
    uint32_t number = desk_expand(lay_slice(BOOK_SLOT, book), book.length,
                                  lay_slice(STRING_SLOT, c->list), c->list.length,
                                  lent_bytes(&stack), c->stack, lent_bytes(&tokens), c->tokens,
                                  lent_bytes(&answer), answer_size);
    check_number(c->name, "expand number", number, served, &c->wanted);
    check_slice(c->name, "expand book", BOOK_SLOT, book);
    check_slice(c->name, "expand list", STRING_SLOT, c->list);
    check_buffer(c->name, "expand stack", &stack);
    check_buffer(c->name, "expand tokens", &tokens);
    check_buffer(c->name, "expand answer", &answer);
}

void check_expand(const struct expand_case *c)
{
    try_answers(expand_once, c);
}

struct judge_case {
    const char *name;
    struct slice book;
    struct wanted wanted;
};

static void judge_once(const void *judge_case, size_t answer_size)
{
    const struct judge_case *c = judge_case;
    struct lent answer = lend_bytes(answer_size);
    bool served = want_served(&answer, &c->wanted);
    uint32_t number = desk_judge(lay_slice(BOOK_SLOT, c->book), c->book.length, lent_bytes(&answer), answer_size);
    check_number(c->name, "judge number", number, served, &c->wanted);
    check_slice(c->name, "judge book", BOOK_SLOT, c->book);
    check_buffer(c->name, "judge answer", &answer);
}

void check_judge(const char *name, struct slice book, struct wanted wanted)
{
    try_answers(judge_once, &(struct judge_case){ name, book, wanted });
}

struct table_case {
    const char *name;
    struct slice book;
    struct slice table;
    struct wanted wanted;
};

static void check_table_once(const void *table_case, size_t answer_size)
{
    const struct table_case *c = table_case;
    struct lent answer = lend_bytes(answer_size);
    bool served = want_served(&answer, &c->wanted);
    uint32_t number = desk_check_table(lay_slice(BOOK_SLOT, c->book), c->book.length, lay_slice(TABLE_SLOT, c->table),
                                       c->table.length, lent_bytes(&answer), answer_size);
    check_number(c->name, "check number", number, served, &c->wanted);
    check_slice(c->name, "check book", BOOK_SLOT, c->book);
    check_slice(c->name, "check table", TABLE_SLOT, c->table);
    check_buffer(c->name, "check answer", &answer);
}

void check_table(const char *name, struct slice book, struct slice table, struct wanted wanted)
{
    struct table_case c = { name, book, table, wanted };
    try_answers(check_table_once, &c);
}

static void plain_once(const void *judge_case, size_t answer_size)
{
    const struct judge_case *c = judge_case;
    struct lent answer = lend_bytes(answer_size);
    bool served = want_served(&answer, &c->wanted);
    uint32_t number = desk_plain(lay_slice(BOOK_SLOT, c->book), c->book.length, lent_bytes(&answer), answer_size);
    check_number(c->name, "plain number", number, served, &c->wanted);
    check_slice(c->name, "plain book", BOOK_SLOT, c->book);
    check_buffer(c->name, "plain answer", &answer);
}

void check_plain(const char *name, struct slice book, struct wanted wanted)
{
    try_answers(plain_once, &(struct judge_case){ name, book, wanted });
}

static void plain_run_once(const void *plain_run_case, size_t answer_size)
{
    const struct plain_run_case *c = plain_run_case;
    struct lent stack = lend_bytes(c->stack), list = lend_bytes(c->list), answer = lend_bytes(answer_size);
    bool served = want_served(&answer, &c->wanted);
    if (served) {
        want_depth(&answer, c->depth);
        want_prefix(&list, c->listed);
    }
    if (served && c->depth > 0)
        want_zeros(&stack);
    uint32_t number = desk_plain_run(lay_slice(BOOK_SLOT, c->book), c->book.length,
                                     lay_slice(STRING_SLOT, c->tokens), c->tokens.length,
                                     lent_bytes(&stack), c->stack, lent_bytes(&list), c->list,
                                     lent_bytes(&answer), answer_size);
    check_number(c->name, "plain run number", number, served, &c->wanted);
    check_slice(c->name, "plain run book", BOOK_SLOT, c->book);
    check_slice(c->name, "plain run tokens", STRING_SLOT, c->tokens);
    check_buffer(c->name, "plain run stack", &stack);
    check_buffer(c->name, "plain run list", &list);
    check_buffer(c->name, "plain run answer", &answer);
}

void check_plain_run(const struct plain_run_case *c)
{
    try_answers(plain_run_once, c);
}

static void want_sets(const struct grammar *grammar, const struct lent *first, const struct lent *follow)
{
    want_words(first, grammar->first, nonterminals_of(grammar));
    want_words(follow, grammar->follow, nonterminals_of(grammar));
}

static void sets_once(const void *sets_case, size_t answer_size)
{
    const struct sets_case *c = sets_case;
    const char *name = c->grammar->name;
    struct slice book = c->grammar->book;
    struct lent first = lend_words(c->firsts), follow = lend_words(c->follows), answer = lend_bytes(answer_size);
    bool served = want_served(&answer, &c->wanted);
    if (served && c->wanted.number == DESK_DONE)
        want_sets(c->grammar, &first, &follow);
    uint32_t number = desk_sets(lay_slice(BOOK_SLOT, book), book.length, lent_words(&first), c->firsts,
                                lent_words(&follow), c->follows, lent_bytes(&answer), answer_size);
    check_number(name, "sets number", number, served, &c->wanted);
    check_slice(name, "sets book", BOOK_SLOT, book);
    check_buffer(name, "sets first", &first);
    check_buffer(name, "sets follow", &follow);
    check_buffer(name, "sets answer", &answer);
}

void check_sets(const struct sets_case *c)
{
    try_answers(sets_once, c);
}

static void build_once(const void *sets_case, size_t answer_size)
{
    const struct sets_case *c = sets_case;
    const char *name = c->grammar->name;
    struct slice book = c->grammar->book;
    struct lent first = lend_words(c->firsts), follow = lend_words(c->follows), table = lend_bytes(c->cells);
    struct lent answer = lend_bytes(answer_size);
    bool served = want_served(&answer, &c->wanted);
    if (served && c->wanted.number == DESK_DONE) {
        want_sets(c->grammar, &first, &follow);
        want_prefix(&table, c->grammar->table);
    }
    uint32_t number = desk_build(lay_slice(BOOK_SLOT, book), book.length, lent_words(&first), c->firsts,
                                 lent_words(&follow), c->follows, lent_bytes(&table), c->cells,
                                 lent_bytes(&answer), answer_size);
    check_number(name, "build number", number, served, &c->wanted);
    check_slice(name, "build book", BOOK_SLOT, book);
    check_buffer(name, "build first", &first);
    check_buffer(name, "build follow", &follow);
    check_buffer(name, "build table", &table);
    check_buffer(name, "build answer", &answer);
}

void check_build(const struct sets_case *c)
{
    try_answers(build_once, c);
}

/* A call that answers one set and one number: FIRST of symbols, or where these are null the lookahead of the
   production. */
struct set_case {
    const char *name;
    struct slice book;
    const struct slice *symbols;
    uint64_t production;
    struct wanted wanted;
    uint64_t set;
    uint64_t count;
};

static uint32_t call_for_set(const struct set_case *c, const struct lent *set, size_t cells,
                             const struct lent *count, size_t counts, const struct lent *answer)
{
    const uint8_t *book = lay_slice(BOOK_SLOT, c->book);
    if (!c->symbols)
        return desk_lookahead(book, c->book.length, c->production, lent_words(set), cells,
                              lent_words(count), counts, lent_bytes(answer), answer->bytes);
    return desk_first_of(book, c->book.length, lay_slice(STRING_SLOT, *c->symbols), c->symbols->length,
                         lent_words(set), cells, lent_words(count), counts, lent_bytes(answer), answer->bytes);
}

static void set_once(const struct set_case *c, size_t cells, size_t counts, size_t answer_size)
{
    struct lent set = lend_words(cells), count = lend_words(counts), answer = lend_bytes(answer_size);
    bool served = cells > 0 && counts > 0 && want_served(&answer, &c->wanted);
    if (served) {
        want_words(&set, &c->set, 1);
        want_words(&count, &c->count, 1);
    }
    uint32_t number = call_for_set(c, &set, cells, &count, counts, &answer);
    check_number(c->name, "set number", number, served, &c->wanted);
    check_slice(c->name, "set book", BOOK_SLOT, c->book);
    if (c->symbols)
        check_slice(c->name, "set symbols", STRING_SLOT, *c->symbols);
    check_buffer(c->name, "set cells", &set);
    check_buffer(c->name, "set counts", &count);
    check_buffer(c->name, "set answer", &answer);
}

static void set_of_each_size(const void *set_case, size_t answer_size)
{
    static const size_t sizes[] = { 0, 1, 3 };
    for (size_t i = 0; i < COUNT(sizes); i++)
        for (size_t k = 0; k < COUNT(sizes); k++)
            set_once(set_case, sizes[i], sizes[k], answer_size);
}

void check_lookahead(const char *name, struct slice book, uint64_t production, struct wanted wanted, uint64_t set,
                     uint64_t count)
{
    try_answers(set_of_each_size, &(struct set_case){ name, book, NULL, production, wanted, set, count });
}

void check_first_of(const char *name, struct slice book, struct slice symbols, struct wanted wanted, uint64_t set,
                    uint64_t count)
{
    try_answers(set_of_each_size, &(struct set_case){ name, book, &symbols, 0, wanted, set, count });
}
