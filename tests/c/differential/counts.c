#include "counts.h"

#include <stddef.h>
#include <stdio.h>

enum { NUMBERS = 18, DETAILS = 7 };

const char *const function_names[FUNCTIONS] = {
    "run", "expand", "judge", "sets", "build", "lookahead", "first_of", "check",
};

/* How often each function met each column, and a bit for each column that it can meet. */
struct counts {
    const char *title;
    size_t columns;
    unsigned possible[FUNCTIONS];
    unsigned long met[FUNCTIONS][NUMBERS];
};

static struct counts numbers = { "number", NUMBERS, { 0xeff, 0x10ff, 0xff, 0xff, 0x1ff, 0x10ff, 0xff, 0x203ff },
                                 { { 0 } } };
static struct counts details = { "detail", DETAILS, { 0x07, 0x0b, 0x01, 0x31, 0x71, 0x01, 0x01, 0x01 }, { { 0 } } };

void count_number(enum function function, uint32_t number)
{
    numbers.met[function][number]++;
}

void count_detail(enum function function, uint64_t detail)
{
    details.met[function][detail < DETAILS ? detail : 0]++;
}

/* Prints a line for each function, and returns how many columns were never met although they can be. */
static unsigned print_functions(const struct counts *counts)
{
    unsigned missing = 0;
    printf("%-10s", counts->title);
    for (size_t column = 0; column < counts->columns; column++)
        printf("%7zu", column);
    for (size_t function = 0; function < FUNCTIONS; function++) {
        printf("\n%-10s", function_names[function]);
        for (size_t column = 0; column < counts->columns; column++) {
            printf("%7lu", counts->met[function][column]);
            missing += (counts->possible[function] >> column & 1) && counts->met[function][column] == 0;
        }
    }
    printf("\n");
    return missing;
}

static void print_sums(const struct counts *counts)
{
    printf("%-10s", "all");
    for (size_t column = 0; column < counts->columns; column++) {
        unsigned long sum = 0;
        for (size_t function = 0; function < FUNCTIONS; function++)
            sum += counts->met[function][column];
        printf("%7lu", sum);
    }
    printf("\n");
}

unsigned print_numbers(void)
{
    unsigned missing = print_functions(&numbers);
    print_sums(&numbers);
    return missing + print_functions(&details);
}
