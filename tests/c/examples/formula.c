#include "examples.h"

#include "calls.h"

#include <string.h>

/* A chain of nonterminals: A0 -> A1 0 .. 0 and so on, the last one sixteen tokens, every right side of sixteen symbols.
   Its first token needs a production of every nonterminal, and each adds fifteen stack cells: just the formula. */
struct chain {
    uint8_t book[6 + 64 * 20];
    uint8_t table[2 * 64];
    uint8_t list[64];
    size_t tokens;
    struct grammar grammar;
};

static struct chain chain;

static void make_chain(uint8_t nonterminals)
{
    const uint8_t header[] = { 'G', 'R', 1, nonterminals, 0, nonterminals };
    size_t length = sizeof header;
    memcpy(chain.book, header, sizeof header);
    for (uint8_t n = 0; n < nonterminals; n++) {
        uint8_t record[20] = { 'P', 'R', n, 16, n + 1 < nonterminals ? (uint8_t)N(n + 1) : 0 };
        memcpy(chain.book + length, record, sizeof record);
        length += sizeof record;
        chain.table[2 * n] = n;
        chain.table[2 * n + 1] = NO;
        chain.list[n] = n;
    }
    chain.tokens = 15 * (size_t)nonterminals + 1;
    chain.grammar = (struct grammar){ .name = "chain", .book = { chain.book, length },
                                      .table = { chain.table, 2 * (size_t)nonterminals } };
}

/* Checks a run over so many of the chain's tokens, with the list's first productions as the ones listed. */
static void check_chain_run(size_t tokens, size_t stack, size_t list, struct wanted wanted, size_t listed)
{
    check_run(&(struct run_case){ "chain", &chain.grammar, { zeros, tokens }, stack, list, wanted,
                                  { chain.list, listed }, DESK_STACK_ROOM(listed, 1) });
}

/* Checks that a chain's table is the one built, that one token needs just what the formula says, that one cell less of
   either is refused, and that the chain's own tokens are derived in that room. */
static void check_chain(uint8_t nonterminals)
{
    make_chain(nonterminals);
    size_t list = DESK_LIST_ROOM(nonterminals, 1), stack = DESK_STACK_ROOM(nonterminals, 1), last = list - 1u;
    uint64_t first[64], follow[64];
    uint8_t table[sizeof chain.table], answer[DESK_ANSWER_SIZE];
    check("chain", "built", desk_build(chain.book, chain.grammar.book.length, first, 64, follow, 64, table,
                                       sizeof table, answer, sizeof answer) == DESK_DONE);
    check("chain", "table", memcmp(table, chain.table, chain.grammar.table.length) == 0);
    check_chain_run(0, DESK_STACK_ROOM(nonterminals, 0), DESK_LIST_ROOM(nonterminals, 0),
                    (struct wanted){ DESK_SYNTAX, 0, 0, 0, 1 }, 0);
    check_chain_run(1, stack, list, (struct wanted){ DESK_SYNTAX, 1, 0, list + 1, 1 }, list);
    check_chain_run(1, stack, last, (struct wanted){ DESK_ROOM, 0, DESK_ROOM_LIST, last, 0 }, last);
    check_chain_run(1, stack - 1, list, (struct wanted){ DESK_ROOM, 0, DESK_ROOM_STACK, last, 0 }, last);
    check_chain_run(chain.tokens, stack, list, (struct wanted){ DESK_DONE, 0, 0, list + chain.tokens, 0 }, list);
}

void check_formula(void)
{
    check("formula", "64 nonterminals", DESK_LIST_ROOM(64, 1) == 64 && DESK_STACK_ROOM(64, 1) == 961);
    check("formula", "3 nonterminals", DESK_LIST_ROOM(3, 1) == 3 && DESK_STACK_ROOM(3, 1) == 46);
    check("formula", "the largest", DESK_STACK_ROOM((uint8_t)64, (uint16_t)4096) == 3932161);
    check_chain(1);
    check_chain(3);
    check_chain(64);
}
