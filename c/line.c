#include "answers.h"

#include <inttypes.h>
#include <stdbool.h>
#include <stdio.h>
#include <stdlib.h>
#include <string.h>

enum { MOST_BYTES = 1 << 16, MOST_WORD = 32 };

/* A patterns file: a line for each token, its word, a space, its pattern. */
static char names[DESK_MOST_PATTERNS + 1][MOST_WORD];
static uint8_t patterns[MOST_BYTES];
static uint64_t lengths[DESK_MOST_PATTERNS + 1];
static size_t patterns_size, count;

static uint8_t book[DESK_MOST_BOOK_BYTES + 1], table[DESK_MOST_TABLE_CELLS];
static size_t book_size;
static uint16_t machine[DESK_MOST_MACHINE_CELLS];
static uint8_t line[MOST_BYTES], tokens[MOST_BYTES], stack[DESK_MOST_CELLS], list[DESK_MOST_CELLS];
static uint64_t ends[MOST_BYTES];
static uint8_t answer[DESK_ANSWER_SIZE];

static FILE *open_file(const char *path)
{
    FILE *stream = fopen(path, "rb");
    if (!stream) {
        perror(path);
        exit(2);
    }
    return stream;
}

/* Reads a line without its end, a line feed or carriage return and line feed; false at the end of the input. */
static bool read_line(FILE *stream, size_t *size)
{
    int byte;
    *size = 0;
    while ((byte = getc(stream)) != EOF && byte != '\n')
        if (*size < sizeof line)
            line[(*size)++] = (uint8_t)byte;
    bool any = byte != EOF || *size > 0;
    *size -= byte == '\n' && *size > 0 && line[*size - 1] == '\r';
    return any;
}

static void load_patterns(const char *path)
{
    FILE *stream = open_file(path);
    size_t size;
    for (; count <= DESK_MOST_PATTERNS && read_line(stream, &size); count++) {
        const uint8_t *space = memchr(line, ' ', size);
        size_t word_size = space ? (size_t)(space - line) : size, from = word_size + (space != NULL);
        if (sizeof patterns - patterns_size < size - from || word_size >= MOST_WORD) {
            fprintf(stderr, "%s: line %zu is too long\n", path, count + 1);
            exit(2);
        }
        memcpy(names[count], line, word_size);
        memcpy(patterns + patterns_size, line + from, size - from);
        lengths[count] = size - from;
        patterns_size += size - from;
    }
    fclose(stream);
}

/* Prints a text, and a mark under its byte at a place; bytes 128 to 191 take no column, as in UTF-8. */
static void mark(const uint8_t *text, size_t size, uint64_t place)
{
    printf("%.*s\n", (int)size, (const char *)text);
    for (size_t i = 0; i < place; i++)
        if (text[i] < 128 || text[i] > 191)
            putchar(text[i] == '\t' ? '\t' : ' ');
    printf("^ ");
}

static int refused(const char *what, uint32_t number)
{
    printf("%s refused with %" PRIu32 ", %s: place %" PRIu64 ", detail %" PRIu64 "\n", what, number, words(number),
           word(answer, 0), word(answer, 1));
    return 1;
}

/* Shows a bad pattern with the place where it is bad. */
static int bad_pattern(void)
{
    uint64_t pattern = word(answer, 1), place = word(answer, 0);
    const uint8_t *text = patterns;
    for (uint64_t k = 0; k < pattern; k++)
        text += lengths[k];
    mark(text, (size_t)lengths[pattern], place);
    printf("%s (14, place %" PRIu64 ", pattern %" PRIu64 ")\n",
           place < lengths[pattern] ? "no pattern has this byte here"
                                    : "the pattern cannot end here, or matches the empty string",
           place, pattern);
    return 1;
}

/* Makes the machine of the patterns and the table of the book. */
static int prepare(void)
{
    uint64_t first[DESK_MOST_NONTERMINALS], follow[DESK_MOST_NONTERMINALS];
    uint32_t number = desk_cut(patterns, patterns_size, lengths, count, NULL, 0, machine, DESK_MOST_MACHINE_CELLS,
                               NULL, 0, answer, sizeof answer);
    if (number == DESK_PATTERN)
        return bad_pattern();
    if (number != DESK_DONE)
        return refused("the patterns are", number);
    number = desk_build(book, book_size, first, DESK_MOST_NONTERMINALS, follow, DESK_MOST_NONTERMINALS, table,
                        sizeof table, answer, sizeof answer);
    return number == DESK_DONE ? 0 : refused("the book is", number);
}

/* Where token i starts: at the first byte that is no space from the end of the one before on. */
static size_t start_of(size_t i)
{
    size_t at = i == 0 ? 0 : (size_t)ends[i - 1];
    while (line[at] == ' ')
        at++;
    return at;
}

/* Prints each token's word, and its text where that is another. */
static void print_tokens(size_t written)
{
    printf("tokens:");
    for (size_t i = 0; i < written; i++) {
        const char *name = names[tokens[i]];
        size_t from = start_of(i), size = (size_t)ends[i] - from;
        printf(" %s", name);
        if (strlen(name) != size || memcmp(name, line + from, size) != 0)
            printf(" (%.*s)", (int)size, (const char *)line + from);
    }
    printf("\n");
}

/* A token's word; the end mark is a token here. */
static const char *name_of(unsigned token)
{
    if (token >= DESK_MOST_GRAMMAR_TOKENS)
        return "the end";
    return token < count ? names[token] : "a token that has no pattern";
}

static void print_expected(uint64_t set)
{
    printf("expected ");
    while (set != 0) {
        unsigned token = 0;
        while (!(set >> token & 1))
            token++;
        set &= set - 1;
        printf("%s%s", name_of(token), set == 0 ? "" : (set & (set - 1)) == 0 ? " or " : ", ");
    }
}

/* Runs the tokens of the line, and says what derives them or what was expected where. */
static int run(size_t size, size_t written)
{
    uint32_t number = desk_run(book, book_size, table, DESK_TABLE_CELLS(book), tokens, written, stack, sizeof stack,
                               list, sizeof list, answer, sizeof answer);
    uint64_t place = word(answer, 0), steps = word(answer, 2);
    if (number == DESK_SYNTAX) {
        mark(line, size, place < written ? start_of((size_t)place) : size);
        print_expected(word(answer, 3));
        printf(" (11, place %" PRIu64 ")\n", place);
        return 1;
    }
    if (number != DESK_DONE)
        return refused("the line is", number);
    printf("derived in %" PRIu64 " steps by productions", steps);
    for (size_t i = 0; i < steps - written; i++)
        printf(" %u", list[i]);
    printf("\n");
    return 0;
}

/* Cuts a line with the machine and runs its tokens; with no pattern there is no machine. */
static int answer_line(size_t size)
{
    uint32_t number = desk_cut_with(machine, count > 0 ? DESK_MOST_MACHINE_CELLS : 0, line, size, tokens, sizeof tokens,
                                    ends, MOST_BYTES, answer, sizeof answer);
    size_t written = (size_t)word(answer, 2);
    if (number == DESK_NO_TOKEN) {
        mark(line, size, word(answer, 0));
        printf("%s (15, place %" PRIu64 ")\n", words(number), word(answer, 0));
        return 1;
    }
    if (number != DESK_DONE)
        return refused("the line is", number);
    print_tokens(written);
    return run(size, written);
}

/* The line is the one in the environment; where there is none, lines are read from standard input. */
int main(int argc, char **argv)
{
    const char *given = getenv("LINE");
    if (argc != 3) {
        fprintf(stderr, "usage: line PATTERNS BOOK   (the line in LINE, else lines on standard input)\n");
        return 2;
    }
    load_patterns(argv[1]);
    FILE *stream = open_file(argv[2]);
    book_size = fread(book, 1, sizeof book, stream);
    fclose(stream);
    int status = prepare();
    size_t size = given ? strlen(given) : 0;
    if (status != 0)
        return status;
    if (given) {
        memcpy(line, given, size < sizeof line ? size : sizeof line);
        return answer_line(size < sizeof line ? size : sizeof line);
    }
    while (read_line(stdin, &size))
        status |= answer_line(size);
    return status;
}
