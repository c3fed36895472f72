#ifndef LENT_H
#define LENT_H

#include <stdbool.h>
#include <stddef.h>
#include <stdint.h>

/* A buffer lent to a call, beside a second one that says what it must hold afterwards; both begin as the same
   junk, with guard bytes on both sides that take part in the comparison. */
struct lent {
    uint8_t *memory;
    uint8_t *wanted;
    size_t guard;
    size_t bytes;
};

/* Where the bytes that a call only reads are laid. */
enum slot { BOOK_SLOT, TABLE_SLOT, STRING_SLOT, SLOTS };

/* Whether slices of length 0 are passed as null pointers. */
extern bool empty_is_null;

/* The next number of a generator that gives the same numbers in every run from the same seed. */
uint64_t next_random(void);
void seed_random(uint64_t seed);

/* Lends cells of one byte, which begin at an odd address, of 16 bits, or of 64 bits. */
struct lent lend_bytes(size_t cells);
struct lent lend_halves(size_t cells);
struct lent lend_words(size_t cells);

/* The first cell of the buffer itself, and of what it must hold. */
uint8_t *lent_bytes(const struct lent *lent);
uint16_t *lent_halves(const struct lent *lent);
uint64_t *lent_words(const struct lent *lent);
uint8_t *wanted_bytes(const struct lent *lent);
uint16_t *wanted_halves(const struct lent *lent);
uint64_t *wanted_words(const struct lent *lent);

/* Whether the buffer and its guards hold what they must. */
bool lent_holds(const struct lent *lent);
void take_back(struct lent *lent);

/* Lays bytes at the end of readable memory, so that a read past them stops the program. */
const uint8_t *lay(enum slot slot, const uint8_t *bytes, size_t length);
bool laid_holds(enum slot slot, const uint8_t *bytes, size_t length);

#endif
