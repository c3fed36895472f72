#ifndef PLAIN_LINES_H
#define PLAIN_LINES_H

#include <stddef.h>
#include <stdint.h>

/* The functions of desk.h for lines as typed, written plainly in C: same parameters, answers and buffer contents. */

uint32_t plain_patterns(const uint8_t *patterns, size_t patterns_len, const uint64_t *lengths, size_t lengths_len,
                        uint8_t *answer, size_t answer_len);
uint32_t plain_cut(const uint8_t *patterns, size_t patterns_len, const uint64_t *lengths, size_t lengths_len,
                   const uint8_t *line, size_t line_len, uint16_t *machine, size_t machine_len,
                   uint8_t *tokens, size_t tokens_len, uint8_t *answer, size_t answer_len);
uint32_t plain_cut_with(const uint16_t *machine, size_t machine_len, const uint8_t *line, size_t line_len,
                        uint8_t *tokens, size_t tokens_len, uint64_t *ends, size_t ends_len,
                        uint8_t *answer, size_t answer_len);

/* plain_patterns in the form of document 01: alternation, sequence, repetition and group call each other and fill the
   tables of positions, for the benchmark to compare with. */
uint32_t plain_patterns_by_parts(const uint8_t *patterns, size_t patterns_len, const uint64_t *lengths,
                                 size_t lengths_len, uint8_t *answer, size_t answer_len);

#endif
