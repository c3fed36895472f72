#ifndef SHEET_INPUTS_H
#define SHEET_INPUTS_H

#include <stddef.h>
#include <stdint.h>

enum { MOST_TEXT = 1 << 15 };

/* A sheet, good or spoiled, and its length. */
struct text {
    uint8_t bytes[MOST_TEXT];
    size_t length;
};

extern struct text text;

/* The sheet of the grammar at hand, some with other numbers, with lines more or less, with right sides about as long as
   they may be; then most are left as they are, and the others damaged, cut, doubled or extended. */
void make_text(void);

#endif
