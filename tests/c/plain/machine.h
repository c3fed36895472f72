#ifndef PLAIN_MACHINE_H
#define PLAIN_MACHINE_H

#include "positions.h"

/* States numbered as they are found, bytes rising, and their rows. */
struct machine {
    size_t states;
    uint64_t points[MOST_STATES][POINT_WORDS];
    uint16_t rows[MOST_STATES][ROW_CELLS];
};

/* The points that can come after those of a state once it has read the byte; whether there are any. */
static bool move(const struct tables *tables, const uint64_t *state, const uint64_t *readers, uint64_t *next)
{
    bool any = false;
    memset(next, 0, POINT_WORDS * sizeof *next);
    for (size_t i = 0; i < POSITION_WORDS; i++)
        for (uint64_t word = state[i] & readers[i]; word != 0; word &= word - 1) {
            const uint64_t *row = tables->follow[64 * i + (size_t)__builtin_ctzll(word)];
            for (size_t j = 0; j < POINT_WORDS; j++)
                next[j] |= row[j];
            any = true;
        }
    return any;
}

/* The number of a set of points, a new one if it was not met before; 256 where that would be one too many. */
static size_t number_of(struct machine *machine, const uint64_t *points)
{
    size_t n = 0;
    while (n < machine->states && memcmp(machine->points[n], points, sizeof machine->points[n]) != 0)
        n++;
    if (n == machine->states && n < MOST_STATES) {
        memcpy(machine->points[n], points, sizeof machine->points[n]);
        machine->states++;
    }
    return n;
}

/* The lowest pattern whose end is among the points. */
static uint16_t token_of(const uint64_t *points)
{
    uint64_t ends = points[POINT_WORDS - 1];
    return ends == 0 ? NONE : (uint16_t)__builtin_ctzll(ends);
}

/* Fills the row of a state; false where more states than there may be are found. */
static bool fill_row(struct machine *machine, const struct tables *tables, const bool *alike, size_t state)
{
    uint64_t next[POINT_WORDS];
    uint16_t *row = machine->rows[state];
    for (size_t byte = 0; byte < 256; byte++) {
        if (alike[byte]) {
            row[byte] = row[byte - 1];
            continue;
        }
        row[byte] = NONE;
        if (!move(tables, machine->points[state], tables->readers[byte], next))
            continue;
        size_t number = number_of(machine, next);
        if (number == MOST_STATES)
            return false;
        row[byte] = (uint16_t)number;
    }
    row[256] = token_of(machine->points[state]);
    return true;
}

static bool make_machine(struct machine *machine, const struct tables *tables, struct answer *answer)
{
    static const uint64_t nothing[POINT_WORDS];
    bool alike[256] = { false };
    for (size_t byte = 1; byte < 256; byte++)
        alike[byte] = memcmp(tables->readers[byte], tables->readers[byte - 1], sizeof tables->readers[byte]) == 0;
    machine->states = 0;
    if (memcmp(tables->follow[MOST_POSITIONS], nothing, sizeof nothing) != 0)
        number_of(machine, tables->follow[MOST_POSITIONS]);
    for (size_t state = 0; state < machine->states; state++)
        if (!fill_row(machine, tables, alike, state))
            return refuse(answer, STATES, MOST_STATES, 0);
    return true;
}

#endif
