#ifndef LINE_INPUTS_H
#define LINE_INPUTS_H

#include "trees.h"

enum { MOST_TEXT = 20000, MOST_LENGTHS = 64, MOST_MACHINE = 65792 + 600 };

/* The inputs of one case: patterns with their lengths, a line, and the cells of a machine. Where the patterns are
   those of the trees, whole and in order, `tree` has them. */
struct inputs {
    uint8_t patterns[MOST_TEXT];
    size_t patterns_length;
    uint64_t lengths[MOST_LENGTHS];
    size_t count;
    const struct tree *tree[MOST_LENGTHS];
    bool from_trees;
    uint8_t line[LONGEST_LINE];
    size_t line_length;
    uint16_t machine[MOST_MACHINE];
    size_t machine_length;
};

extern struct inputs in;

/* Patterns of trees, most of them whole; some are damaged by a byte put in, taken out, changed or cut off, some have
   lengths that do not add up, some are as many as there may be or one more. */
void make_patterns(void);

/* A line of strings that the trees match, spaces and a few other bytes. */
void make_line(void);

/* The machine of the patterns where they have one, also damaged, longer and cut off, or junk. */
void make_machine_cells(void);

#endif
