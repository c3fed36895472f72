#ifndef PICK_H
#define PICK_H

#include <stdbool.h>
#include <stddef.h>
#include <stdint.h>

/* What a case is made with: numbers that depend on its seed alone, and damages to bytes that were right. */

enum { MANY_CELLS = 70000 };

/* A number between low and high, both included. */
size_t pick(size_t low, size_t high);
bool chance(size_t percent);
size_t smaller(size_t a, size_t b);

/* Changes one byte, and adds bytes up to the most there may be, which gives the new length. */
void damage(uint8_t *bytes, size_t length);
size_t extend(uint8_t *bytes, size_t length, size_t most);

#endif
