#ifndef COUNTS_H
#define COUNTS_H

#include <stdint.h>

enum function { RUN, EXPAND, JUDGE, SETS, BUILD, LOOKAHEAD, FIRST_OF, CHECK, FUNCTIONS };

extern const char *const function_names[FUNCTIONS];

/* Counts a case by the number it met, and a refusal 7 by its detail, 0 if the answer could not be written. */
void count_number(enum function function, uint32_t number);
void count_detail(enum function function, uint64_t detail);

/* Prints how often each function met each number and each detail, and gives how many possible ones were never met. */
unsigned print_numbers(void);

#endif
