#ifndef PLAIN_H
#define PLAIN_H

#include <stddef.h>
#include <stdint.h>

/* The eight functions of desk.h on books, written plainly in C, to compare with: same parameters, answers and buffer
   contents. */

uint32_t plain_run(const uint8_t *book, size_t book_len, const uint8_t *table, size_t table_len,
                   const uint8_t *tokens, size_t tokens_len, uint8_t *stack, size_t stack_len,
                   uint8_t *list, size_t list_len, uint8_t *answer, size_t answer_len);
uint32_t plain_expand(const uint8_t *book, size_t book_len, const uint8_t *list, size_t list_len,
                      uint8_t *stack, size_t stack_len, uint8_t *tokens, size_t tokens_len,
                      uint8_t *answer, size_t answer_len);
uint32_t plain_judge(const uint8_t *book, size_t book_len, uint8_t *answer, size_t answer_len);
uint32_t plain_sets(const uint8_t *book, size_t book_len, uint64_t *first, size_t first_len,
                    uint64_t *follow, size_t follow_len, uint8_t *answer, size_t answer_len);
uint32_t plain_build(const uint8_t *book, size_t book_len, uint64_t *first, size_t first_len,
                     uint64_t *follow, size_t follow_len, uint8_t *table, size_t table_len,
                     uint8_t *answer, size_t answer_len);
uint32_t plain_check_table(const uint8_t *book, size_t book_len, const uint8_t *table, size_t table_len,
                           uint8_t *answer, size_t answer_len);
uint32_t plain_lookahead(const uint8_t *book, size_t book_len, uint64_t production,
                         uint64_t *set, size_t set_len, uint64_t *count, size_t count_len,
                         uint8_t *answer, size_t answer_len);
uint32_t plain_first_of(const uint8_t *book, size_t book_len, const uint8_t *symbols, size_t symbols_len,
                        uint64_t *set, size_t set_len, uint64_t *count, size_t count_len,
                        uint8_t *answer, size_t answer_len);

/* And desk_plain and desk_plain_run. */
uint32_t plain_profile(const uint8_t *book, size_t book_len, uint8_t *answer, size_t answer_len);
uint32_t plain_profile_run(const uint8_t *book, size_t book_len, const uint8_t *tokens, size_t tokens_len,
                           uint8_t *stack, size_t stack_len, uint8_t *list, size_t list_len,
                           uint8_t *answer, size_t answer_len);

#endif
