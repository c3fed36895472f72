#include "check.h"

#include <stdio.h>
#include <string.h>

enum { MOST_SHOWN = 20 };

const uint8_t zeros[MANY_CELLS] = { 0 };

static unsigned long checks, wrong;

void check(const char *name, const char *what, bool right)
{
    checks++;
    if (right)
        return;
    wrong++;
    if (wrong <= MOST_SHOWN)
        printf("wrong: %s: %s\n", name, what);
}

int report(void)
{
    printf("%lu checks, %lu wrong\n", checks, wrong);
    return wrong == 0 ? 0 : 1;
}

static void want_word(uint8_t *bytes, uint64_t word)
{
    for (size_t i = 0; i < 8; i++)
        bytes[i] = (uint8_t)(word >> (8 * i));
}

void want_answer(const struct lent *answer, const struct wanted *wanted)
{
    uint8_t *bytes = wanted_bytes(answer);
    want_word(bytes, wanted->place);
    want_word(bytes + 8, wanted->detail);
    want_word(bytes + 16, wanted->steps);
    want_word(bytes + 24, wanted->expected);
    want_word(bytes + 32, 0);
}

void want_depth(const struct lent *answer, uint64_t depth)
{
    want_word(wanted_bytes(answer) + 32, depth);
}

void want_prefix(const struct lent *lent, struct slice prefix)
{
    if (prefix.length > 0)
        memcpy(wanted_bytes(lent), prefix.bytes, prefix.length);
}

void want_words(const struct lent *lent, const uint64_t *words, size_t count)
{
    memcpy(wanted_words(lent), words, count * sizeof *words);
}

void want_zeros(const struct lent *lent)
{
    if (lent->bytes > 0)
        memset(wanted_bytes(lent), 0, lent->bytes);
}

const uint8_t *lay_slice(enum slot slot, struct slice slice)
{
    return lay(slot, slice.bytes, slice.length);
}

void check_buffer(const char *name, const char *what, struct lent *lent)
{
    check(name, what, lent_holds(lent));
    take_back(lent);
}

void check_slice(const char *name, const char *what, enum slot slot, struct slice slice)
{
    check(name, what, laid_holds(slot, slice.bytes, slice.length));
}
