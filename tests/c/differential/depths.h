#ifndef DEPTHS_H
#define DEPTHS_H

/* The depth that a call tells is the stack it needs: asked of the library on the inputs of the case at hand, with what
   the call answered and wrote. Each gives false where that is broken. */
#include <stdbool.h>
#include <stddef.h>
#include <stdint.h>

/* A run that is done or stops for syntax, with this list. */
bool run_depth_is_needed(uint32_t number, const uint8_t *answer, const uint8_t *list, size_t list_size);

/* An expansion that is done or whose list does not fit, with these tokens. */
bool expand_depth_is_needed(uint32_t number, const uint8_t *answer, const uint8_t *tokens, size_t tokens_size);

/* Prints how often each was asked, and gives how many were never. */
unsigned print_depths(void);

#endif
