#ifndef PLAIN_CUT_H
#define PLAIN_CUT_H

#include "patterns.h"

/* A line cut by the rows of a machine. */
struct rows {
    const uint16_t *cells;
    size_t count;
};

/* The longest match from a place on: its token, or NONE, and the place behind it. */
static uint16_t longest(struct rows rows, const uint8_t *line, size_t length, size_t from, size_t *end)
{
    uint16_t token = NONE;
    const uint16_t *row = rows.cells;
    if (rows.count == 0)
        return NONE;
    for (size_t at = from; at < length; at++) {
        size_t next = row[line[at]];
        if (next >= rows.count)
            break;
        row = rows.cells + ROW_CELLS * next;
        if (row[256] < MOST_PATTERNS) {
            token = row[256];
            *end = at + 1;
        }
    }
    return token;
}

/* Cuts the line; the answer's steps are the tokens written. */
static void cut_line(struct rows rows, const uint8_t *line, size_t length, uint8_t *tokens, size_t tokens_len,
                     uint64_t *ends, size_t ends_len, struct answer *answer)
{
    size_t at = 0;
    while (at < length) {
        size_t end = 0;
        if (line[at] == ' ') {
            at++;
            continue;
        }
        uint16_t token = longest(rows, line, length, at, &end);
        if (token == NONE) {
            refuse(answer, NO_TOKEN, at, 0);
            return;
        }
        if (answer->steps == tokens_len) {
            refuse(answer, ROOM, at, TOKENS_DETAIL);
            return;
        }
        tokens[answer->steps] = (uint8_t)token;
        if (answer->steps < ends_len)
            ends[answer->steps] = end;
        answer->steps++;
        at = end;
    }
}

#endif
