#ifndef TREES_H
#define TREES_H

#include <stdbool.h>
#include <stddef.h>
#include <stdint.h>

/* Patterns made as trees, so that what they mean is known without reading them: written as text, sampled, and matched
   by the meaning alone. */

enum { MOST_TREES = 62, LONGEST_LINE = 4096, LONGEST_MATCHED = 24 };

struct tree;

/* Forgets all trees, and draws the bytes that the next ones are made of. */
void begin_trees(void);

/* A tree of about so many bytes and classes, which seldom matches the empty string. */
const struct tree *make_tree(size_t size);

/* Writes a tree as a pattern, with groups where they are needed and some where they are not; gives the length. */
size_t write_tree(const struct tree *tree, uint8_t *text, size_t most);

/* Writes a string that the tree matches; gives the length. */
size_t sample_tree(const struct tree *tree, uint8_t *string, size_t most);

/* A byte that the trees have, or any byte. */
uint8_t any_tree_byte(void);

/* The lengths of the beginnings of a string of at most 24 bytes that the tree matches, a bit for each. */
uint32_t beginnings(const struct tree *tree, const uint8_t *string, size_t length);

#endif
