#ifndef CASES_H
#define CASES_H

/* Random cases, each made from its number alone: what a differential test has to give. */

/* How many cases differed so far. */
extern unsigned long differences;

/* Makes a case, makes its call on both sides and compares every byte they leave. */
void compare_case(unsigned long number);

/* Prints how often each kind of case was met, and gives how many possible ones were never met. */
unsigned print_counts(void);

#endif
