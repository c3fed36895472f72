#ifndef CALLS_H
#define CALLS_H

#include "books.h"

/* Calls of the functions, each checked whole: the number, every byte of every lent buffer with its guards, and
   the inputs, which stay as they were. Every call is made with answer buffers that are short, exact and longer, and
   with empty slices as pointers and as null. */

/* A run with the rooms it is lent, the answer, what the list begins with afterwards, and the depth: 0 where steps did
   not begin, and then the stack stays as it was. */
struct run_case {
    const char *name;
    const struct grammar *grammar;
    struct slice tokens;
    size_t stack;
    size_t list;
    struct wanted wanted;
    struct slice listed;
    uint64_t depth;
};

/* An expansion with the rooms it is lent, the answer, what the output begins with afterwards, and the depth. */
struct expand_case {
    const char *name;
    const struct grammar *grammar;
    struct slice list;
    size_t stack;
    size_t tokens;
    struct wanted wanted;
    struct slice written;
    uint64_t depth;
};

/* A call of sets or of build with the rooms it is lent; done, it gives the sets and the table of the grammar. */
struct sets_case {
    const struct grammar *grammar;
    size_t firsts;
    size_t follows;
    size_t cells;
    struct wanted wanted;
};

/* A run on a plain book alone. */
struct plain_run_case {
    const char *name;
    struct slice book;
    struct slice tokens;
    size_t stack;
    size_t list;
    struct wanted wanted;
    struct slice listed;
    uint64_t depth;
};

/* A bottom-up run on a table of actions and moves, of so many cells; otherwise as a run. */
struct slr_case {
    const char *name;
    struct slice book;
    const uint16_t *table;
    size_t cells;
    struct slice tokens;
    size_t stack;
    size_t list;
    struct wanted wanted;
    struct slice listed;
    uint64_t depth;
};

void check_run(const struct run_case *c);
void check_slr_run(const struct slr_case *c);
void check_expand(const struct expand_case *c);
void check_judge(const char *name, struct slice book, struct wanted wanted);
void check_table(const char *name, struct slice book, struct slice table, struct wanted wanted);
void check_plain(const char *name, struct slice book, struct wanted wanted);
void check_plain_run(const struct plain_run_case *c);
void check_sets(const struct sets_case *c);
void check_build(const struct sets_case *c);

/* These two answer the set given and how many leading symbols can vanish, each in a buffer without a cell, of one cell
   and of three. */
void check_lookahead(const char *name, struct slice book, uint64_t production, struct wanted wanted, uint64_t set,
                     uint64_t count);
void check_first_of(const char *name, struct slice book, struct slice symbols, struct wanted wanted, uint64_t set,
                    uint64_t count);

#endif
