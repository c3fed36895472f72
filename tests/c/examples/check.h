#ifndef CHECK_H
#define CHECK_H

#include "desk.h"
#include "lent.h"
#include "house.h"

/* What the examples are written with: slices of bytes, whole answers, and checks that are counted. */

enum { MANY_CELLS = 70000, NO = DESK_NO_PRODUCTION };

#define END DESK_END_MARK
#define EMPTY DESK_EMPTY_STRING
#define COUNT(array) (sizeof(array) / sizeof(array)[0])

/* The answer buffers that every call is tried with: too short, of 32 bytes too, just long enough, and longer. */
#define ANSWER_SIZES { 0, 32, DESK_ANSWER_SIZE - 1, DESK_ANSWER_SIZE, DESK_ANSWER_SIZE + 8 }

struct slice {
    const uint8_t *bytes;
    size_t length;
};

/* A slice of a whole array, of the bytes given, and of none. */
#define ALL_OF(array) { array, sizeof array }
#define BYTES(...) { (const uint8_t[]){ __VA_ARGS__ }, sizeof(const uint8_t[]){ __VA_ARGS__ } }
#define NONE { NULL, 0 }

/* A whole answer, but for the depth, which is 0 of all calls that neither run nor expand. */
struct wanted {
    uint32_t number;
    uint64_t place;
    uint64_t detail;
    uint64_t steps;
    uint64_t expected;
};

/* The answer of a call that is done and takes no steps. */
#define DONE { DESK_DONE, 0, 0, 0, 0 }

extern const uint8_t zeros[MANY_CELLS];

/* Counts a check, and shows the first ones that are wrong. */
void check(const char *name, const char *what, bool right);

/* Prints the count, and gives the program's exit status. */
int report(void);

/* Say what a lent buffer must hold: an answer at depth 0, its depth, cells it begins with, and zeros alone. */
void want_answer(const struct lent *answer, const struct wanted *wanted);
void want_depth(const struct lent *answer, uint64_t depth);
void want_prefix(const struct lent *lent, struct slice prefix);
void want_words(const struct lent *lent, const uint64_t *words, size_t count);
void want_zeros(const struct lent *lent);

/* Checks a lent buffer with its guards and takes it back. */
void check_buffer(const char *name, const char *what, struct lent *lent);

/* Lays what a call only reads, and checks afterwards that it is unchanged. */
const uint8_t *lay_slice(enum slot slot, struct slice slice);
void check_slice(const char *name, const char *what, enum slot slot, struct slice slice);

#endif
