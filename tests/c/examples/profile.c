#include "examples.h"

#include "calls.h"

#include <string.h>

/* Q: S -> a B, B -> b, B -> c S. */
static const uint8_t plain_book[] = {
    'G', 'R', 3, 2, 0, 3,
    'P', 'R', 0, 2, 0, N(1),
    'P', 'R', 1, 1, 1,
    'P', 'R', 1, 2, 2, N(0),
};

/* I, which is refused before the profile is asked, and J. */
static const uint8_t sterile[] = {
    'G', 'R', 2, 3, 0, 4,
    'P', 'R', 0, 1, 0,
    'P', 'R', 0, 2, N(1), N(2),
    'P', 'R', 1, 1, 1,
    'P', 'R', 2, 1, N(2),
};

static const uint8_t nested[] = {
    'G', 'R', 2, 2, 0, 3,
    'P', 'R', 0, 3, 1, N(0), 1,
    'P', 'R', 0, 2, N(1), 0,
    'P', 'R', 1, 1, 1,
};

/* S -> a, S -> B, B -> b. */
static const uint8_t named[] = { 'G', 'R', 2, 2, 0, 3, 'P', 'R', 0, 1, 0, 'P', 'R', 0, 1, N(1), 'P', 'R', 1, 1, 1 };

/* S -> a, S -> b, S -> a b. */
static const uint8_t shared[] = { 'G', 'R', 2, 1, 0, 3, 'P', 'R', 0, 1, 0, 'P', 'R', 0, 1, 1, 'P', 'R', 0, 2, 0, 1 };

/* S -> a, S -> a b, S -> empty: two productions break the profile, and the lower one is told. */
static const uint8_t twice[] = { 'G', 'R', 2, 1, 0, 3, 'P', 'R', 0, 1, 0, 'P', 'R', 0, 2, 0, 1, 'P', 'R', 0, 0 };

/* S -> a B, B -> a: one token, two left sides. */
static const uint8_t apart[] = { 'G', 'R', 1, 2, 0, 2, 'P', 'R', 0, 2, 0, N(1), 'P', 'R', 1, 1, 0 };

/* S -> a and fifteen S, S -> b: each token adds fourteen stack cells. */
static const uint8_t growing[] = {
    'G', 'R', 2, 1, 0, 2,
    'P', 'R', 0, 16, 0, N(0), N(0), N(0), N(0), N(0), N(0), N(0), N(0), N(0), N(0), N(0), N(0), N(0), N(0), N(0),
    'P', 'R', 0, 1, 1,
};

#define Q ALL_OF(plain_book)
#define ACAB BYTES(0, 2, 0, 1)

static const struct plain_run_case runs[] = {
    { "Q acab", Q, ACAB, 2, 4, { 0, 0, 0, 8, 0 }, ACAB, 2 },
    { "Q aa", Q, BYTES(0, 0), 2, 4, { 11, 1, 0, 2, 0x6 }, BYTES(0), 2 },
    { "Q acab with a list of 3", Q, ACAB, 2, 3, { 7, 3, 2, 6, 0 }, BYTES(0, 2, 0), 2 },
    { "Q acab with a stack of 1", Q, ACAB, 1, 4, { 7, 0, 1, 0, 0 }, NONE, 1 },
    { "Q without tokens", Q, NONE, 2, 4, { 11, 0, 0, 0, 0x1 }, NONE, 1 },
    { "Q abb", Q, BYTES(0, 1, 1), 2, 4, { 11, 2, 0, 4, END }, BYTES(0, 1), 2 },
    { "Q acc", Q, BYTES(0, 2, 2), 2, 4, { 11, 2, 0, 4, 0x1 }, BYTES(0, 2), 2 },
    { "Q with too many tokens", Q, { zeros, 4097 }, 0, 0, { 4, 4096, 0, 0, 0 }, NONE, 0 },
    { "Q with a strange token", Q, BYTES(0, 3), 0, 4, { 10, 1, 0, 0, 0 }, NONE, 0 },
    { "Q without a stack", Q, BYTES(0), 0, 4, { 7, 0, 1, 0, 0 }, NONE, 0 },
    { "Q with the room of 4 tokens", Q, ACAB, DESK_STACK_ROOM(1, 4), DESK_LIST_ROOM(1, 4), { 0, 0, 0, 8, 0 }, ACAB, 2 },
    { "growing, just enough", ALL_OF(growing), { zeros, 4096 }, 57346, 4096, { 11, 4096, 0, 8192, 0x3 },
      { zeros, 4096 }, 57346 },
    { "growing, a cell less", ALL_OF(growing), { zeros, 4096 }, 57345, 4096, { 7, 4095, 1, 8190, 0 },
      { zeros, 4095 }, 57332 },
};

/* Checks that a book is refused with 21 by both calls, whatever the tokens and the room. */
static void check_unfit(const char *name, struct slice book, uint64_t place)
{
    static uint8_t strange[5000];
    memset(strange, 255, sizeof strange);
    struct wanted wanted = { DESK_PROFILE, place, 0, 0, 0 };
    check_plain(name, book, wanted);
    check_plain_run(&(struct plain_run_case){ name, book, ALL_OF(strange), 0, 0, wanted, NONE, 0 });
    check_plain_run(&(struct plain_run_case){ name, book, BYTES(0), 9, 9, wanted, NONE, 0 });
}

void check_profile(void)
{
    check_unfit("H", (struct slice)ALL_OF(house_book), 3);
    check_unfit("J", (struct slice)ALL_OF(nested), 1);
    check_unfit("S -> B", (struct slice)ALL_OF(named), 1);
    check_unfit("S -> a twice", (struct slice)ALL_OF(shared), 2);
    check_unfit("S -> a twice and empty", (struct slice)ALL_OF(twice), 1);
    check_plain("I", (struct slice)ALL_OF(sterile), (struct wanted){ DESK_USELESS, 1, 0, 0, 0 });
    check_plain("Q", (struct slice)Q, (struct wanted)DONE);
    check_plain("S -> a B, B -> a", (struct slice)ALL_OF(apart), (struct wanted)DONE);
    check_plain("growing", (struct slice)ALL_OF(growing), (struct wanted)DONE);
    for (size_t i = 0; i < COUNT(runs); i++)
        check_plain_run(&runs[i]);
}
