#include "answers.h"

#include <inttypes.h>
#include <stdbool.h>
#include <stdio.h>
#include <stdlib.h>
#include <string.h>

/* A file's bytes, as far as 65,536: more than any input allowed, so that the desk itself refuses what is too long. */
struct file {
    uint8_t bytes[DESK_MOST_CELLS + 1];
    size_t length;
};

static struct file book, table, tokens;
static uint8_t stack[DESK_MOST_CELLS], list[DESK_MOST_CELLS], expanded[DESK_MOST_TOKENS];

static void load(const char *path, struct file *file)
{
    FILE *stream = fopen(path, "rb");
    if (!stream) {
        perror(path);
        exit(2);
    }
    file->length = fread(file->bytes, 1, sizeof file->bytes, stream);
    if (ferror(stream)) {
        perror(path);
        exit(2);
    }
    fclose(stream);
}

static int refused(const char *what, uint32_t number, const uint8_t *answer)
{
    printf("%s refused with %" PRIu32 ", %s: place %" PRIu64 ", detail %" PRIu64 ", steps %" PRIu64 "\n", what, number,
           words(number), word(answer, 0), word(answer, 1), word(answer, 2));
    if (number == DESK_SYNTAX) {
        printf("expected after %" PRIu64 " tokens:", word(answer, 0));
        for (unsigned token = 0; token < DESK_MOST_GRAMMAR_TOKENS; token++)
            if (word(answer, 3) >> token & 1)
                printf(" %u", token);
        printf("%s\n", word(answer, 3) & DESK_END_MARK ? " end" : "");
    }
    return 1;
}

/* Says how deep a run went, done or refused in steps, so that who lends the stack knows what it needs. */
static void say_depth(const uint8_t *answer)
{
    uint64_t depth = word(answer, 4);
    if (depth > 0)
        printf("at most %" PRIu64 " stack cell%s held\n", depth, depth == 1 ? " was" : "s were");
}

/* Builds the table of the book, which takes N x (T+1) cells. */
static uint32_t build(uint8_t *answer)
{
    uint64_t first[DESK_MOST_NONTERMINALS], follow[DESK_MOST_NONTERMINALS];
    uint32_t number = desk_build(book.bytes, book.length, first, DESK_MOST_NONTERMINALS, follow, DESK_MOST_NONTERMINALS,
                                 table.bytes, DESK_MOST_TABLE_CELLS, answer, DESK_ANSWER_SIZE);
    if (number == DESK_DONE)
        table.length = DESK_TABLE_CELLS(book.bytes);
    return number;
}

/* What a cell of the table holds, and where it stands. */
static void show_cell(size_t cell)
{
    size_t columns = book.bytes[2] + 1u, column = cell % columns;
    printf("row %zu, column ", cell / columns);
    if (column + 1 < columns)
        printf("%zu", column);
    else
        printf("end");
    if (table.bytes[cell] == DESK_NO_PRODUCTION)
        printf(" holds no production\n");
    else
        printf(" holds %u\n", table.bytes[cell]);
}

/* Checks a table that was loaded, and says what is wrong with it. */
static int check(uint8_t *answer)
{
    uint32_t number = desk_check_table(book.bytes, book.length, table.bytes, table.length, answer, DESK_ANSWER_SIZE);
    if (number == DESK_DONE)
        return 0;
    refused("the table", number, answer);
    bool of_cell = number == DESK_CONFLICT || number == DESK_DIFFERS
                || (number == DESK_TABLE && table.length == DESK_TABLE_CELLS(book.bytes));
    if (of_cell)
        show_cell((size_t)word(answer, 0));
    return 1;
}

/* Expands the list back and says whether it gives the tokens it was listed for. */
static int expand_back(size_t listed, uint8_t *answer)
{
    uint32_t number = desk_expand(book.bytes, book.length, list, listed, stack, sizeof stack,
                                  expanded, sizeof expanded, answer, DESK_ANSWER_SIZE);
    if (number != DESK_DONE)
        return refused("expansion", number, answer);
    size_t written = (size_t)word(answer, 2) - listed;
    int same = written == tokens.length && memcmp(expanded, tokens.bytes, written) == 0;
    printf("the list expands to %s tokens\n", same ? "the same" : "other");
    return same ? 0 : 1;
}

static int run(uint8_t *answer)
{
    uint32_t number = desk_run(book.bytes, book.length, table.bytes, table.length, tokens.bytes, tokens.length,
                               stack, sizeof stack, list, sizeof list, answer, DESK_ANSWER_SIZE);
    if (number != DESK_DONE) {
        refused("run", number, answer);
        say_depth(answer);
        return 1;
    }
    size_t listed = (size_t)word(answer, 2) - tokens.length;
    printf("run done in %" PRIu64 " steps: %zu tokens derived by %zu productions:", word(answer, 2), tokens.length,
           listed);
    for (size_t i = 0; i < listed; i++)
        printf(" %u", list[i]);
    printf("\n");
    say_depth(answer);
    return expand_back(listed, answer);
}

int main(int argc, char **argv)
{
    uint8_t answer[DESK_ANSWER_SIZE];
    if (argc != 4) {
        fprintf(stderr, "usage: restore BOOK TABLE TOKENS   (TABLE - builds it from the book)\n");
        return 2;
    }
    load(argv[1], &book);
    load(argv[3], &tokens);
    if (strcmp(argv[2], "-") != 0) {
        load(argv[2], &table);
        if (check(answer) != 0)
            return 1;
    } else {
        uint32_t number = build(answer);
        if (number != DESK_DONE)
            return refused("building", number, answer);
    }
    return run(answer);
}
