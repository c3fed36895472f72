#ifndef LAWS_H
#define LAWS_H

/* What the answers of calls have to do with each other, asked of the library on the inputs of the case at hand; each
   gives false where the law is broken. */
#include <stdbool.h>

/* Where room by formula speaks of the case, a run with just that room is not refused for room. */
bool formula_is_enough(void);

/* FIRST of the string is the join of FIRST of two parts of it, which are served like the whole; and of its symbols as
   many can vanish as of the first part and, where all of that can, of the second. */
bool parts_join(void);

/* FIRST of the string has the empty string exactly if all its symbols are counted as ones that can vanish. */
bool all_counted(void);

/* The table is passed exactly if building is done and writes it. */
bool passes_as_built(void);

/* Prints how often each law was met, and gives how many were never. */
unsigned print_laws(void);

#endif
