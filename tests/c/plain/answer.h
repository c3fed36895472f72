#ifndef PLAIN_ANSWER_H
#define PLAIN_ANSWER_H

#include <stdbool.h>
#include <stddef.h>
#include <stdint.h>

/* The numbers of the documents, and the answer of a call. The parts of the plain implementation are headers of static
   functions, so that the compiler sees all of it at once: it is what the benchmark compares with. */

enum { DONE, SHORT, MARK, EXTRA, LIMIT, SYMBOL, USELESS, ROOM, CONFLICT, TABLE, TOKEN, SYNTAX, PRODUCTION };
enum { ANSWER_SIZE = 40 };

/* It begins as all 0, which is done. */
struct answer {
    uint32_t number;
    uint64_t place;
    uint64_t detail;
    uint64_t steps;
    uint64_t expected;
    uint64_t depth;
};

/* Fills in a refusal, and is false so that a check can return it. */
static bool refuse(struct answer *answer, uint32_t number, uint64_t place, uint64_t detail)
{
    answer->number = number;
    answer->place = place;
    answer->detail = detail;
    return false;
}

static void write_word(uint8_t *bytes, uint64_t word)
{
    for (size_t i = 0; i < 8; i++)
        bytes[i] = (uint8_t)(word >> (8 * i));
}

/* Writes the five words of an answer into the lent buffer and returns its number. */
static uint32_t give(const struct answer *answer, uint8_t *buffer)
{
    write_word(buffer, answer->place);
    write_word(buffer + 8, answer->detail);
    write_word(buffer + 16, answer->steps);
    write_word(buffer + 24, answer->expected);
    write_word(buffer + 32, answer->depth);
    return answer->number;
}

#endif
