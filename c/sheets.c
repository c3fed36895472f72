#include "answers.h"

#include <inttypes.h>
#include <stdbool.h>
#include <stdio.h>
#include <stdlib.h>
#include <string.h>

/* sheets write: a book on standard input, its sheet on standard output; sheets read: a sheet, its book. A refusal goes
   to standard error in words, of a sheet with its line and a mark under the place. */

static uint8_t *input;
static size_t input_size;
static uint8_t output[DESK_MOST_SHEET_BYTES], answer[DESK_ANSWER_SIZE];

_Static_assert(DESK_MOST_SHEET_BYTES >= DESK_MOST_BOOK_BYTES, "one buffer serves both ways");

static void give_up(const char *what)
{
    perror(what);
    exit(2);
}

static void load(void)
{
    size_t room = 0, taken;
    do {
        room = room ? 2 * room : 1 << 14;
        input = realloc(input, room);
        if (!input)
            give_up("sheets");
        taken = fread(input + input_size, 1, room - input_size, stdin);
        input_size += taken;
    } while (input_size == room);
    if (ferror(stdin))
        give_up("standard input");
}

/* How a byte is shown: as it is if it prints, else by its number. */
static int show(uint8_t byte, char *text)
{
    return sprintf(text, byte >= 32 && byte < 127 ? "%c" : "\\x%02x", byte);
}

/* The number that begins at a place, as it is typed. */
static int typed(size_t place)
{
    int size = 0;
    while (place + (size_t)size < input_size && input[place + size] >= '0' && input[place + size] <= '9')
        size++;
    return size;
}

/* What is wrong at a place where the form breaks; the slips of hands have names. */
static void tell_form(size_t place, bool at_line_start)
{
    char shown[8];
    if (place == input_size) {
        fprintf(stderr, "%s\n", input_size == 0 ? "the sheet is empty"
                                : input[place - 1] == '\n' ? "the sheet breaks off" : "the last line has no line feed");
        return;
    }
    show(input[place], shown);
    if (input[place] == '\r')
        fprintf(stderr, "a carriage return: lines end with a line feed alone\n");
    else if (input[place] == '\t')
        fprintf(stderr, "a tab: symbols are parted by one space\n");
    else if (input[place] == '\n' && at_line_start)
        fprintf(stderr, "an empty line\n");
    else if (input[place] == '\n' && input[place - 1] == ' ')
        fprintf(stderr, "a space at the line's end\n");
    else if (input[place] == '\n')
        fprintf(stderr, "the line ends too early\n");
    else if (input[place] >= '0' && input[place] <= '9' && place > 0 && input[place - 1] == '0')
        fprintf(stderr, "a number begins with 0\n");
    else
        fprintf(stderr, "`%s` cannot stand here\n", shown);
}

/* What is wrong with a value: on the first line by which number it is, on the others by its letter. */
static void tell_value(uint32_t number, size_t place, size_t line, size_t start)
{
    static const char *const first[] = { "T is not from 1 to", "N is not from 1 to", "the start is not below N",
                                         "P is not from 1 to" };
    static const int most[] = { DESK_MOST_GRAMMAR_TOKENS, DESK_MOST_NONTERMINALS, 0, 128 };
    size_t field = 0;
    if (line == 1) {
        for (size_t i = start; i < place; i++)
            field += input[i] == ' ';
        if (field == 2)
            fprintf(stderr, "%s\n", first[field]);
        else
            fprintf(stderr, "%s %d\n", first[field], most[field]);
    } else if (number == DESK_LIMIT) {
        fprintf(stderr, "a right side has at most %d symbols\n", DESK_MOST_SYMBOLS);
    } else {
        bool token = input[place - 1] == 't';
        fprintf(stderr, "%s %.*s is not below %s\n", token ? "token" : "nonterminal", typed(place),
                (const char *)input + place, token ? "T" : "N");
    }
}

/* The line that holds a place, with a mark under it; places past the last line feed are at the last line's end. */
static void tell_place(uint32_t number, size_t place)
{
    size_t line = 1, start = 0, end;
    for (size_t i = 0; i < place; i++)
        if (input[i] == '\n' && i + 1 < input_size) {
            line++;
            start = i + 1;
        }
    size_t at = place - (place > start && place == input_size && input[place - 1] == '\n');
    for (end = start; end < input_size && input[end] != '\n';)
        end++;
    fprintf(stderr, "line %zu, column %zu: ", line, at - start + 1);
    if (number == DESK_FORM)
        tell_form(place, place == start);
    else if (number == DESK_SHORT)
        fprintf(stderr, "fewer lines than P says\n");
    else if (number == DESK_EXTRA)
        fprintf(stderr, "more lines than P says\n");
    else
        tell_value(number, place, line, start);
    int column = 0;
    for (size_t i = start; i < end; i++) {
        char shown[8];
        int size = show(input[i], shown);
        fputs(shown, stderr);
        column += i < at ? size : 0;
    }
    fprintf(stderr, "\n%*s^\n", column, "");
}

static int refused(const char *what, uint32_t number, bool sheet)
{
    size_t place = (size_t)word(answer, 0);
    fprintf(stderr, "the %s is refused with %" PRIu32 ", place %zu", what, number, place);
    if (sheet) {
        fprintf(stderr, "\n");
        tell_place(number, place);
    } else {
        fprintf(stderr, ": %s\n", words(number));
    }
    return 1;
}

int main(int argc, char **argv)
{
    bool reads = argc == 2 && strcmp(argv[1], "read") == 0;
    if (!reads && !(argc == 2 && strcmp(argv[1], "write") == 0)) {
        fprintf(stderr, "usage: sheets write < BOOK > SHEET, or sheets read < SHEET > BOOK\n");
        return 2;
    }
    load();
    uint32_t number = reads ? desk_read_sheet(input, input_size, output, sizeof output, answer, sizeof answer)
                            : desk_write_sheet(input, input_size, output, sizeof output, answer, sizeof answer);
    if (number != DESK_DONE)
        return refused(reads ? "sheet" : "book", number, reads);
    size_t size = (size_t)word(answer, 2);
    if (fwrite(output, 1, size, stdout) != size || fflush(stdout) != 0)
        give_up("standard output");
    return 0;
}
