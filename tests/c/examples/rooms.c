#include "examples.h"

#include "rooms.h"

#include <string.h>

/* Left recursion, which grows the stack by a cell at each production. */
static const struct grammar growing = {
    .book = BYTES('G', 'R', 1, 1, 0, 2, 'P', 'R', 0, 2, N(0), 0, 'P', 'R', 0, 1, 0),
    .table = BYTES(0, NO),
};

/* A production that changes nothing, which only fills the list. */
static const struct grammar turning = {
    .book = BYTES('G', 'R', 1, 1, 0, 2, 'P', 'R', 0, 1, N(0), 'P', 'R', 0, 1, 0),
    .table = BYTES(0, NO),
};

/* Any number of tokens, one and two at a time. */
static const struct grammar repeating = {
    .book = BYTES('G', 'R', 2, 1, 0, 2, 'P', 'R', 0, 2, 1, N(0), 'P', 'R', 0, 0),
    .table = BYTES(NO, 0, 1),
};
static const struct grammar doubling = {
    .book = BYTES('G', 'R', 2, 1, 0, 2, 'P', 'R', 0, 3, 1, 1, N(0), 'P', 'R', 0, 0),
};

/* Checks that all tokens are judged and that the first bad one is reported, with 4,096 of them and with one more. */
static void check_token_limits(void)
{
    static uint8_t tokens[4097];
    static uint8_t list[4097];
    memset(tokens, 1, sizeof tokens);
    list[4096] = 1;
    struct run_case c = { "4096 tokens", &repeating, { tokens, 4096 }, 2, 4097,
                          { 0, 0, 0, 8193, 0 }, ALL_OF(list), 2 };
    check_run(&c);
    tokens[4095] = 2;
    c.wanted = (struct wanted){ DESK_TOKEN, 4095, 0, 0, 0 };
    c.listed.length = 0;
    c.depth = 0;
    check_run(&c);
    c.tokens.length = 4097;
    c.wanted = (struct wanted){ DESK_LIMIT, 4096, 0, 0, 0 };
    check_run(&c);
}

/* What example A comes to with the rooms given. */
static void want_house_run(struct run_case *c)
{
    static const uint8_t list[] = { 0, 1, 2, 4, 1, 3, 5 };
    c->depth = c->stack > 0;
    c->listed = (struct slice){ list, 0 };
    if (c->stack == 0 || (c->stack == 1 && c->list > 0))
        c->wanted = (struct wanted){ DESK_ROOM, 0, DESK_ROOM_STACK, 0, 0 };
    else if (c->list == 0)
        c->wanted = (struct wanted){ DESK_ROOM, 0, DESK_ROOM_LIST, 0, 0 };
    else if (c->list == 1 || c->stack == 2) {
        c->wanted = (struct wanted){ DESK_ROOM, 1, c->list == 1 ? DESK_ROOM_LIST : DESK_ROOM_STACK, 2, 0 };
        c->listed.length = 1;
        c->depth = 2;
    } else if (c->list == 6) {
        c->wanted = (struct wanted){ DESK_ROOM, 6, DESK_ROOM_LIST, 12, 0 };
        c->listed.length = 6;
        c->depth = 3;
    } else {
        c->wanted = (struct wanted){ DESK_DONE, 0, 0, 13, 0 };
        c->listed.length = 7;
        c->depth = 3;
    }
}

static void check_house_rooms(void)
{
    static const size_t stacks[] = { 0, 1, 2, 3, 4, 65535, 65536, MANY_CELLS };
    static const size_t lists[] = { 0, 1, 6, 7, 8, 65535, 65536, MANY_CELLS };
    struct run_case c = { "A with rooms", &house, BYTES(0, 1, 2, 1, 3, 1), 0, 0, DONE, NONE, 0 };
    for (size_t i = 0; i < COUNT(stacks); i++)
        for (size_t k = 0; k < COUNT(lists); k++) {
            c.stack = stacks[i];
            c.list = lists[k];
            want_house_run(&c);
            check_run(&c);
        }
}

/* Checks that cells past 65,535 are no room, of the stack with left recursion, of the list with S -> S. */
static void check_large_runs(void)
{
    struct run_case grow = { "growing", &growing, BYTES(0), 0, 0, { 7, 0, 0, 0, 0 }, { zeros, 0 }, 0 };
    struct run_case turn = { "turning", &turning, BYTES(0), 1, 0, { 7, 0, 2, 0, 0 }, { zeros, 0 }, 1 };
    for (size_t k = 0; k < COUNT(large_rooms); k++) {
        for (size_t i = 0; i < COUNT(large_rooms); i++) {
            grow.stack = large_rooms[i];
            grow.list = large_rooms[k];
            bool list_full = counted(grow.list) <= counted(grow.stack) - 1;
            grow.listed.length = list_full ? counted(grow.list) : counted(grow.stack) - 1;
            grow.wanted.detail = list_full ? DESK_ROOM_LIST : DESK_ROOM_STACK;
            grow.wanted.steps = grow.listed.length;
            grow.depth = grow.listed.length + 1;
            check_run(&grow);
        }
        turn.list = large_rooms[k];
        turn.listed.length = counted(turn.list);
        turn.wanted.steps = turn.listed.length;
        check_run(&turn);
    }
}

/* What example K comes to with the rooms given. */
static void want_house_expansion(struct expand_case *c)
{
    static const uint8_t tokens[] = { 0, 1 };
    size_t written = c->tokens;
    c->depth = c->stack > 0;
    c->written = (struct slice){ tokens, 0 };
    if (c->stack < 2)
        c->wanted = (struct wanted){ DESK_ROOM, 0, DESK_ROOM_STACK, 0, 0 };
    else if (c->stack == 2 && c->tokens > 0) {
        c->wanted = (struct wanted){ DESK_ROOM, 1, DESK_ROOM_STACK, 2, 0 };
        c->written.length = 1;
        c->depth = 2;
    } else if (c->tokens < 2) {
        c->wanted = (struct wanted){ DESK_ROOM, written + 1, DESK_ROOM_TOKENS, 2 * written + 1, 0 };
        c->written.length = written;
        c->depth = written + 2;
    } else {
        c->wanted = (struct wanted){ DESK_DONE, 0, 0, 6, 0 };
        c->written.length = 2;
        c->depth = 3;
    }
}

static void check_house_expansions(void)
{
    static const size_t stacks[] = { 0, 1, 2, 3, 4, 65535, 65536, MANY_CELLS };
    static const size_t outputs[] = { 0, 1, 2, 3, 65535, 65536, MANY_CELLS };
    struct expand_case c = { "K with rooms", &house, BYTES(0, 1, 3, 5), 0, 0, DONE, NONE, 0 };
    for (size_t i = 0; i < COUNT(stacks); i++)
        for (size_t k = 0; k < COUNT(outputs); k++) {
            c.stack = stacks[i];
            c.tokens = outputs[k];
            want_house_expansion(&c);
            check_expand(&c);
        }
}

/* Checks an expansion that needs 65,535 cells of stack, of list and of output, with about as many lent. */
static void check_large_expansions(void)
{
    static uint8_t list[65535];
    list[65534] = 1;
    struct expand_case c = { "growing back", &growing, ALL_OF(list), 0, 0, DONE, { zeros, 0 }, 0 };
    for (size_t i = 0; i < COUNT(large_rooms); i++)
        for (size_t k = 0; k < COUNT(large_rooms); k++) {
            c.stack = large_rooms[i];
            c.tokens = large_rooms[k];
            c.written.length = counted(c.tokens);
            c.depth = counted(c.stack);
            c.wanted = (struct wanted){ DESK_DONE, 0, 0, 65535 + 65535, 0 };
            if (c.stack < 65535) {
                c.wanted = (struct wanted){ DESK_ROOM, 65533, DESK_ROOM_STACK, 65533, 0 };
                c.written.length = 0;
            } else if (c.tokens < 65535)
                c.wanted = (struct wanted){ DESK_ROOM, 65535, DESK_ROOM_TOKENS, 65535 + 65534, 0 };
            check_expand(&c);
        }
    struct expand_case grow = { "growing only", &growing, { zeros, 65535 }, MANY_CELLS, MANY_CELLS,
                                { DESK_ROOM, 65534, DESK_ROOM_STACK, 65534, 0 }, NONE, 65535 };
    check_expand(&grow);
}

/* Checks that output cells past 65,535 are no room. */
static void check_large_outputs(void)
{
    static uint8_t tokens[65535];
    memset(tokens, 1, sizeof tokens);
    struct expand_case twice = { "doubling", &doubling, { zeros, 40000 }, 3, 0, DONE, { tokens, 0 }, 3 };
    for (size_t i = 0; i < COUNT(large_rooms); i++) {
        twice.tokens = large_rooms[i];
        twice.written.length = counted(twice.tokens);
        twice.wanted = (struct wanted){ DESK_ROOM, 32768, DESK_ROOM_TOKENS, 32768 + twice.written.length, 0 };
        check_expand(&twice);
    }
    struct expand_case once = { "repeating", &repeating, { zeros, 65535 }, 2, MANY_CELLS,
                                { DESK_PRODUCTION, 65535, 0, 65535 + 65535, 0 }, ALL_OF(tokens), 2 };
    check_expand(&once);
}

void check_rooms(void)
{
    check_token_limits();
    check_house_rooms();
    check_large_runs();
    check_house_expansions();
    check_large_expansions();
    check_large_outputs();
}
