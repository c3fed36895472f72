#ifndef PLAIN_SHEETS_H
#define PLAIN_SHEETS_H

#include <stddef.h>
#include <stdint.h>

/* The functions of desk.h for grammar sheets, written plainly in C: same parameters, answers and buffer contents. */

uint32_t plain_write_sheet(const uint8_t *book, size_t book_len, uint8_t *sheet, size_t sheet_len,
                           uint8_t *answer, size_t answer_len);
uint32_t plain_read_sheet(const uint8_t *sheet, size_t sheet_len, uint8_t *book, size_t book_len,
                          uint8_t *answer, size_t answer_len);

#endif
