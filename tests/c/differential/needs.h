#ifndef NEEDS_H
#define NEEDS_H

#include "inputs.h"

/* How much room a case needs, so that the buffers lent are mostly just enough or just too small. */

/* The stack that a list takes and the tokens it gives. */
struct needs {
    size_t depth;
    size_t tokens;
};

/* What a list takes and gives, played from the start symbol as far as it fits. */
struct needs play(const struct shape *shape, const uint8_t *list, size_t count);

/* How much list and stack the run takes, found by a run with room enough for most. */
void find_run_needs(const struct shape *shape, size_t *list_need, size_t *stack_need);

/* A size near the one needed, or at a border that matters. */
size_t size_near(size_t need);

/* A number of set cells: enough for any grammar, or near what this one needs. */
size_t set_cells(void);

size_t answer_size(void);

/* The word of an answer that begins with these bytes. */
uint64_t word_at(const uint8_t *bytes);

#endif
