#ifndef PLAIN_PATTERNS_H
#define PLAIN_PATTERNS_H

#include "answer.h"

/* The numbers and limits of document 02, W3, and patterns lent as bytes with their lengths. */

enum { PATTERN = 14, NO_TOKEN = 15, STATES = 16 };
enum { MACHINE_DETAIL = 1, TOKENS_DETAIL = 2 };
enum { MOST_PATTERNS = 62, MOST_POSITIONS = 256, MOST_STATES = 256, MOST_GROUPS = 8, ROW_CELLS = 257, NONE = 65535 };

struct patterns {
    const uint8_t *bytes;
    size_t left;
    const uint64_t *lengths;
    size_t count;
};

struct text {
    const uint8_t *bytes;
    size_t length;
};

/* Pattern k is the next of the bytes that are left, as many as its length says. */
static struct text next_text(struct patterns *patterns, size_t k)
{
    size_t length = patterns->lengths[k] < patterns->left ? (size_t)patterns->lengths[k] : patterns->left;
    struct text text = { patterns->bytes, length };
    if (length > 0)
        patterns->bytes += length;
    patterns->left -= length;
    return text;
}

/* What became of a text: bad at a place, or good with so many positions. */
struct reading {
    bool bad;
    size_t place;
    size_t positions;
};

#endif
