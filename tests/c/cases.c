#include "cases.h"

#include <stdio.h>
#include <stdlib.h>

enum { DEFAULT_CASES = 200000 };

/* Usage: PROGRAM [CASES [FIRST CASE]]. */
int main(int argc, char **argv)
{
    unsigned long cases = argc > 1 ? strtoul(argv[1], NULL, 10) : DEFAULT_CASES;
    unsigned long first_case = argc > 2 ? strtoul(argv[2], NULL, 10) : 0;
    for (unsigned long number = first_case; number < first_case + cases; number++)
        compare_case(number);
    unsigned missing = print_counts();
    if (missing > 0)
        printf("%u of these never met\n", missing);
    printf("%lu cases, %lu differences\n", cases, differences);
    return differences == 0 && missing == 0 ? 0 : 1;
}
