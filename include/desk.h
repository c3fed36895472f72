#ifndef DESK_H
#define DESK_H

#include <stddef.h>
#include <stdint.h>

#ifdef __cplusplus
extern "C" {
#endif

/* The grammar desk reads a grammar book, works out its sets and its LL(1) table, runs token strings and expands
   production lists. It keeps nothing between calls and allocates nothing: all memory is lent by the caller.

   A book is a string of bytes. It opens with 'G' 'R' and four bytes: T tokens (1 to 62), N nonterminals (1 to 64),
   the start (below N), P productions (1 to 128). Then come P records: 'P' 'R', the left side (below N), the length
   L of the right side (0 to 16), and L symbols. A symbol is a token t below T, or 128 + n for a nonterminal n below
   N. Nothing follows the last record. A production's number is its place among the records, from 0.

   A set is a 64-bit number: bit t for token t, bit 62 for the end mark, bit 63 for the empty string.

   A table is N x (T+1) bytes, row by row: cell A x (T+1) + t is row A, column t, and column T is the end mark. A
   cell holds the number of a production of its row, or 255 for none.

   Every pointer comes with a length in elements. A null pointer with length 0 is an empty slice; a null pointer
   with any other length is not allowed. Bytes need no alignment, 16-bit and 64-bit numbers that of uint16_t and
   uint64_t. Lent buffers must not overlap one another or anything the call reads. What is passed as const is only read.

   Every call returns one of the numbers below and writes five words of 64 bits, lowest byte first whatever the
   machine, into the lent answer buffer: place, detail, steps, expected set and depth, from bytes 0, 8, 16, 24 and 32.
   The words that the comments below do not name are 0; after DESK_DONE only the steps of a run, an expansion, a cut or
   a sheet and the depth of a run or an expansion can be other than 0. The answer is written on every refusal too. Bytes
   of the answer buffer past 40 stay as they were. There is one exception: where the answer buffer has less than 40 bytes, or a
   set is answered and its buffer has no cell or that of its number has none, the call returns DESK_ROOM before all else
   and writes nothing at all, to the answer buffer or to any other.

   The depth is the most stack cells that the call held at any moment, the start symbol's included, and 0 where steps
   did not begin; calls that neither run nor expand have none. It says what stack to lend: see desk_run. */

#define DESK_ANSWER_SIZE 40
#define DESK_MOST_BOOK_BYTES 2566
#define DESK_MOST_SHEET_BYTES 8973
#define DESK_MOST_GRAMMAR_TOKENS 62
#define DESK_MOST_TOKENS 4096
#define DESK_MOST_CELLS 65535
#define DESK_MOST_SYMBOLS 16
#define DESK_MOST_NONTERMINALS 64
#define DESK_MOST_TABLE_CELLS 4032
#define DESK_MOST_PATTERNS 62
#define DESK_MOST_POSITIONS 256
#define DESK_MOST_OPEN_GROUPS 8
#define DESK_MOST_STATES 256
#define DESK_ROW_CELLS 257
#define DESK_MOST_MACHINE_CELLS 65792

/* How many cells the table of a book has that desk_judge finds done: N x (T+1). */
#define DESK_TABLE_CELLS(book) ((size_t)(book)[3] * ((book)[2] + 1u))

/* Room by formula: how many list and stack cells are enough for a run over that many tokens, before any string is
   seen. Let no right side of the book be empty, the table be the one of desk_build, and the tokens be at most 4,096,
   each below T, derivable or not. The run then lists at most N x tokens productions and holds at most 1 + 15 x N x
   tokens stack cells, however it ends; so where both are lent, and neither is above 65,535, with an answer buffer long
   enough the answer is never DESK_ROOM. They say nothing of a book with an empty right side, of another table, or
   where one of the two is above 65,535. */
#define DESK_LIST_ROOM(nonterminals, tokens) ((size_t)(nonterminals) * (size_t)(tokens))
#define DESK_STACK_ROOM(nonterminals, tokens) (1 + 15 * DESK_LIST_ROOM(nonterminals, tokens))

#define DESK_NONTERMINAL 128
#define DESK_NO_PRODUCTION 255

/* In a cell of a machine: no next state, or no token. */
#define DESK_CUT_NONE 65535

/* In a cell of a table of actions and moves: DESK_SLR_REDUCE + p reduces by production p. */
#define DESK_MOST_SLR_CELLS 48896
#define DESK_SLR_REDUCE 512
#define DESK_SLR_ACCEPT 1023
#define DESK_SLR_NONE 65535

#define DESK_END_MARK (UINT64_C(1) << 62)
#define DESK_EMPTY_STRING (UINT64_C(1) << 63)

/* The numbers that the calls return. */
enum {
    DESK_DONE = 0,
    DESK_SHORT = 1,
    DESK_MARK = 2,
    DESK_EXTRA = 3,
    DESK_LIMIT = 4,
    DESK_SYMBOL = 5,
    DESK_USELESS = 6,
    DESK_ROOM = 7,
    DESK_CONFLICT = 8,
    DESK_TABLE = 9,
    DESK_TOKEN = 10,
    DESK_SYNTAX = 11,
    DESK_PRODUCTION = 12,
    DESK_FORM = 13,
    DESK_PATTERN = 14,
    DESK_NO_TOKEN = 15,
    DESK_STATES = 16,
    DESK_DIFFERS = 17,
    DESK_PROFILE = 21
};

/* The details of DESK_ROOM: which buffer is too small. */
enum {
    DESK_ROOM_STACK = 1,
    DESK_ROOM_LIST = 2,
    DESK_ROOM_TOKENS = 3,
    DESK_ROOM_FIRST = 4,
    DESK_ROOM_FOLLOW = 5,
    DESK_ROOM_TABLE = 6
};

/* The details of DESK_ROOM where a line is cut. */
enum {
    DESK_CUT_ROOM_MACHINE = 1,
    DESK_CUT_ROOM_TOKENS = 2
};

/* Runs a token string over an LL(1) table of the book.

   Refusals, in this order; up to and including the last of this list nothing but the answer changes:
     the refusals of desk_judge;
     DESK_TABLE   the table's length is not N x (T+1): place is the length given; or a cell is neither 255 nor a
                  production of its row: place is the first such cell;
     DESK_LIMIT   more than 4,096 tokens: place 4,096;
     DESK_TOKEN   a token is T or above, wherever it stands: place is the index of the first one;
     DESK_ROOM    the stack has no cell: detail DESK_ROOM_STACK, place 0.

   Then the start symbol is put on the stack, and steps begin. While the stack is not empty, a token on top is
   matched with the next token and popped, and a nonterminal A on top is replaced: the table's row A and the column
   of the next token (T if none is left) give a production, which is listed, and whose right side takes A's place,
   leftmost symbol on top. The run is done when the stack is empty and all tokens are matched. In steps, place is
   the number of tokens matched:
     DESK_SYNTAX  a token on top is not the next one: expected set is that token; or the cell is 255: expected set
                  is the filled columns of row A, the end mark for column T; or the stack is empty with tokens left:
                  expected set is the end mark;
     DESK_ROOM    the list is full: detail DESK_ROOM_LIST; else the stack would be too long after the replacement:
                  detail DESK_ROOM_STACK.

   steps is always productions listed + tokens matched, so the list holds steps - tokens_len productions when done
   and steps - place when stopped in steps; done, this is a leftmost derivation of the tokens, and with the table of
   desk_build the only one. Once steps have begun, every cell of the stack is 0 after the call, listed cells stay,
   and list cells beyond them are unchanged.

   Room: at most 65,535 cells of the stack and of the list count, so 65,535 of each is as good as any; a derivation
   that needs more is refused with DESK_ROOM. Stack cells past 65,535 are zeroed all the same, list cells past it
   never touched.

   depth is the most stack cells held at any moment, at least 1 once steps have begun; a replacement that is refused for
   room is not held. With DESK_DONE and DESK_SYNTAX just that many stack cells are enough for the same call, with the
   same answer and list, and with fewer it is refused with DESK_ROOM, detail DESK_ROOM_STACK. With DESK_ROOM it says
   what was held before.

   Any table that passes DESK_TABLE is run, whoever made it; desk_build makes the one of the book, and desk_check_table
   says whether a table is that one. With another table
   productions may replace one another without end: then the list or the stack fills up, and the call ends with
   DESK_ROOM. */
uint32_t desk_run(const uint8_t *book, size_t book_len, const uint8_t *table, size_t table_len,
                  const uint8_t *tokens, size_t tokens_len, uint8_t *stack, size_t stack_len,
                  uint8_t *list, size_t list_len, uint8_t *answer, size_t answer_len);

/* Runs a token string bottom-up over a table of actions and moves of the book; so books that repeat to the left can be
   served. `table` is aligned as uint16_t is. It has a row for each state, at most 256, and a row has T+1+N cells: token t
   is column t, the end mark column T, nonterminal A column T+1+A; the cell of a state and a column is
   state x (T+1+N) + column. Under a token a cell holds a state to shift to, or DESK_SLR_REDUCE + p; at the end mark
   DESK_SLR_REDUCE + p, or DESK_SLR_ACCEPT; under a nonterminal the state that it moves to; DESK_SLR_NONE where there is
   nothing.

   Refusals, in this order; up to and including the last of this list nothing but the answer changes:
     the refusals of desk_judge;
     DESK_TABLE   the cells are no whole number of rows, no row, or more than 256: place is the length in cells; or a cell
                  holds none of the above (a state that is no row, a production that is none of the book's, or something
                  of another kind of column): place is the first such cell;
     DESK_LIMIT   more than 4,096 tokens: place 4,096;
     DESK_TOKEN   a token is T or above, wherever it stands: place is the index of the first one;
     DESK_ROOM    the stack has no cell: detail DESK_ROOM_STACK, place 0.

   Then state 0 is put on the stack, a byte for each state held, and steps begin. The state on top and the column of the
   next token (the end mark if none is left) give a cell. Shift matches the token and pushes the state. A reduction by p
   lists p, pops as many states as p's right side has symbols, and pushes the state that the one uncovered has under p's
   left side. Accept ends the run, and is no step. In steps, place is the number of tokens matched:
     DESK_SYNTAX  the cell is DESK_SLR_NONE; or a reduction would leave no state, or the state uncovered has no move:
                  expected set is the filled token columns of the state on top, and the end mark if that column is filled;
     DESK_ROOM    a reduction and the list is full: detail DESK_ROOM_LIST; else no stack cell is left for the state to be
                  pushed: detail DESK_ROOM_STACK.

   steps is always productions listed + tokens matched. Done, the list read backwards is a rightmost derivation of the
   tokens if the table is built from the book without conflict, and then the only one; it is no list for desk_expand,
   which takes leftmost ones. Once steps have begun, every cell of the stack is 0 after the call, listed cells stay, and
   list cells beyond them are unchanged.

   Room: at most 65,535 cells of the stack and of the list count, so 65,535 of each is as good as any. depth is the most
   states held at any moment, state 0 counted.

   Any table that passes DESK_TABLE is run, whoever made it. Every reduction takes a list cell, so that the call ends. */
uint32_t desk_slr_run(const uint8_t *book, size_t book_len, const uint16_t *table, size_t table_len,
                      const uint8_t *tokens, size_t tokens_len, uint8_t *stack, size_t stack_len,
                      uint8_t *list, size_t list_len, uint8_t *answer, size_t answer_len);

/* Expands a list of productions, taken as a leftmost derivation from the start symbol, into the tokens it derives.

   Refusals, in this order; up to and including the last of this list nothing but the answer changes:
     the refusals of desk_judge;
     DESK_LIMIT   the list has more than 65,535 productions: place 65,535;
     DESK_ROOM    the stack has no cell: detail DESK_ROOM_STACK, place 0.

   Then the start symbol is put on the stack, and steps begin: a token on top is popped and written to `tokens`, a
   nonterminal on top is replaced by the right side of the list's next production, leftmost symbol on top. The
   expansion is done when the stack is empty and the list used up. In steps:
     DESK_ROOM        a token is to be written and `tokens` is full: detail DESK_ROOM_TOKENS, place is the number of
                      productions used;
     DESK_PRODUCTION  a nonterminal is on top and the list is at its end (place is then list_len), or its next
                      number is no production of that nonterminal; or the stack is empty with list left over: place
                      is the list index, which is the number of productions used;
     DESK_ROOM        the production fits, but the stack would be too long after the replacement: detail
                      DESK_ROOM_STACK, place is the number of productions used.

   steps is always productions used + tokens written, so steps - list_len tokens are written when done, and
   steps - place when stopped in steps. Once steps have begun, every cell of the stack is 0 after the call, written
   tokens stay, and cells beyond them are unchanged.

   Room: at most 65,535 cells of the stack and of `tokens` count, so 65,535 of each is as good as any; 4,096 cells
   of `tokens` are enough for the list of a run that was done. Stack cells past 65,535 are zeroed all the same,
   token cells past it never touched.

   depth is the most stack cells held at any moment, as in a run. With DESK_DONE and DESK_PRODUCTION just that many
   stack cells are enough for the same call with as many `tokens`, with the same answer and tokens, and with fewer it is
   refused with DESK_ROOM, detail DESK_ROOM_STACK. */
uint32_t desk_expand(const uint8_t *book, size_t book_len, const uint8_t *list, size_t list_len,
                     uint8_t *stack, size_t stack_len, uint8_t *tokens, size_t tokens_len,
                     uint8_t *answer, size_t answer_len);

/* Judges a book, and changes nothing but the answer.

   The book's bytes are judged one by one from the front, and the first bad or missing byte decides; place is the
   offset of that byte:
     DESK_SHORT    a wanted byte is missing: place is book_len;
     DESK_MARK     a byte of 'G' 'R' or 'P' 'R' is wrong;
     DESK_LIMIT    T, N, the start, P or a length is out of range;
     DESK_SYMBOL   a left side is not below N, or a symbol is not of the grammar;
     DESK_EXTRA    bytes follow the last record: place is the first of them.
   Then, of a book whose every byte is right:
     DESK_USELESS  a nonterminal occurs in no derivation of a token string from the start: place is the lowest such
                   nonterminal, which is 0 if the start derives no token string at all. */
uint32_t desk_judge(const uint8_t *book, size_t book_len, uint8_t *answer, size_t answer_len);

/* Tests whether a book is plain: every right side starts with a token, and no two productions of one nonterminal start
   with the same one. Nothing but the answer is changed.

   Refusals, in this order:
     the refusals of desk_judge;
     DESK_PROFILE  a right side is empty, or starts with a nonterminal, or with the token that a lower production of the
                   same nonterminal starts with: place is the lowest such production. */
uint32_t desk_plain(const uint8_t *book, size_t book_len, uint8_t *answer, size_t answer_len);

/* Runs a token string on a plain book alone: no table is lent, and none is kept.

   Refusals, in this order; up to and including the last of this list nothing but the answer changes:
     the refusals of desk_plain;
     DESK_LIMIT   more than 4,096 tokens: place 4,096;
     DESK_TOKEN   a token is T or above, wherever it stands: place is the index of the first one;
     DESK_ROOM    the stack has no cell: detail DESK_ROOM_STACK, place 0.

   Then steps are made as in desk_run on the table that desk_build makes of the book, which a plain book always has: with
   equal room the answer, the stack and the list are the same, and all that is said there holds. Where the run stops
   with DESK_SYNTAX nothing was listed since the last token matched, so the expected set is just what can come next.

   Room: a run over n tokens lists at most n productions. n list cells and 1 + 15 x n stack cells, DESK_LIST_ROOM(1, n)
   and DESK_STACK_ROOM(1, n), are always enough for n tokens; the second is at most 61,441. */
uint32_t desk_plain_run(const uint8_t *book, size_t book_len, const uint8_t *tokens, size_t tokens_len,
                        uint8_t *stack, size_t stack_len, uint8_t *list, size_t list_len,
                        uint8_t *answer, size_t answer_len);

/* Works out FIRST and FOLLOW of every nonterminal.

   Refusals, in this order:
     the refusals of desk_judge;
     DESK_ROOM     `first` has less than N cells: detail DESK_ROOM_FIRST, place N; else `follow` has less than N
                   cells: detail DESK_ROOM_FOLLOW, place N.
   Refused, both buffers are unchanged. Done, cell A of each holds the set of nonterminal A, and cells from N on are
   unchanged. 64 cells of each are always enough.

   FIRST of A has bit t if A derives something that starts with t, and bit 63 if A derives the empty string. FOLLOW
   of A has bit t if some sentential form has t right after A, and bit 62 if one ends in A. How many leading symbols of
   a right side can vanish is worked out on the way and not passed on. */
uint32_t desk_sets(const uint8_t *book, size_t book_len, uint64_t *first, size_t first_len,
                   uint64_t *follow, size_t follow_len, uint8_t *answer, size_t answer_len);

/* Works out FIRST and FOLLOW and builds the LL(1) table.

   Refusals, in this order:
     the refusals of desk_judge;
     DESK_ROOM      `first` has less than N cells: detail DESK_ROOM_FIRST, place N; else `follow` has less than N
                    cells: detail DESK_ROOM_FOLLOW, place N; else `table` has less than N x (T+1) cells: detail
                    DESK_ROOM_TABLE, place N x (T+1);
     DESK_CONFLICT  two productions claim a cell: place is the first such cell, detail is its lowest claimant x 256
                    + the next lowest.
   Refused, all three buffers are unchanged. Done, `first` and `follow` are as after desk_sets, the first N x (T+1)
   cells of `table` hold the table, and cells beyond are unchanged. 64, 64 and 4,032 cells are always enough;
   desk_run wants the table with exactly N x (T+1) cells.

   A production of A claims row A in the columns of its lookahead. How many leading symbols of its right side can
   vanish is worked out on the way and not passed on. */
uint32_t desk_build(const uint8_t *book, size_t book_len, uint64_t *first, size_t first_len,
                    uint64_t *follow, size_t follow_len, uint8_t *table, size_t table_len,
                    uint8_t *answer, size_t answer_len);

/* Checks a table against its book, whoever made it, and changes nothing but the answer: it passes exactly if it is the
   one that desk_build writes. No table is built for that. `table` may be null with length 0.

   Refusals, in this order:
     the refusals of desk_judge;
     DESK_TABLE     the table's length is not N x (T+1): place is the length given; or a cell is neither 255 nor a
                    production of its row: place is the first such cell;
     DESK_CONFLICT  two productions claim a cell, whatever the table holds: place and detail as desk_build has them;
     DESK_DIFFERS   a cell does not hold the only production that claims it, or 255 if none does: place is the first
                    such cell.
   A conflict anywhere is told before any cell that differs. On a table that passed, a run of at most 4,096 tokens, each
   below T, has all that is said of a run with the table of desk_build. */
uint32_t desk_check_table(const uint8_t *book, size_t book_len, const uint8_t *table, size_t table_len,
                          uint8_t *answer, size_t answer_len);

/* Works out the lookahead of one production: FIRST of its right side without bit 63, with FOLLOW of its left side
   added if the right side can vanish; and how many leading symbols of the right side can vanish.

   `set` or `count` without a cell gives DESK_ROOM before all else, with nothing written, as a short answer buffer
   does. Then:
     the refusals of desk_judge;
     DESK_PRODUCTION  the number is not below P: place is that number.
   The first cell of `set` holds the lookahead, or 0 if refused. The first cell of `count` holds the number of symbols
   in front of the right side that derive the empty string, up to the first that does not, or 0 if refused; a token
   never does. FOLLOW was added exactly if it is the length of the right side. Cells beyond the first are unchanged. */
uint32_t desk_lookahead(const uint8_t *book, size_t book_len, uint64_t production, uint64_t *set, size_t set_len,
                        uint64_t *count, size_t count_len, uint8_t *answer, size_t answer_len);

/* Works out FIRST of a symbol string, of the empty one bit 63; and how many of its leading symbols can vanish.

   `set` or `count` without a cell gives DESK_ROOM before all else, with nothing written, as a short answer buffer
   does. Then:
     the refusals of desk_judge;
     DESK_LIMIT    more than 16 symbols: place 16;
     DESK_SYMBOL   a symbol is not of the grammar: place is the index of the first one.
   The first cell of `set` holds FIRST of the string, or 0 if refused. The first cell of `count` holds the number of
   symbols in front that derive the empty string, up to the first that does not, or 0 if refused: 0 for no symbols,
   and symbols_len exactly if the set has bit 63. Cells beyond the first are unchanged. */
uint32_t desk_first_of(const uint8_t *book, size_t book_len, const uint8_t *symbols, size_t symbols_len,
                       uint64_t *set, size_t set_len, uint64_t *count, size_t count_len,
                       uint8_t *answer, size_t answer_len);

/* Judges patterns, one for each token, and changes nothing but the answer.

   The patterns are one slice of bytes and their lengths: pattern k is the next lengths[k] of the bytes, or as many as
   are left; bytes left over are not used. So any byte can stand in a pattern, 0 and line feed too. A pattern has
     bytes             each matches itself; case counts, `.` is a dot, and `^ $ { } "` are plain as well;
     classes           [abc], [a-z], [a-z_]: one of these bytes, ends of a range rising or equal; nothing negates;
     groups            ( ), up to 8 open inside one another;
     alternation       a|b;
     repetitions       a* a+ a?: any number of times, at least once, at most once; one sign on an item at the most,
                       an item being a byte, a class or a group.
   \ makes the next byte plain, whichever it is (\n is the letter n). [ ] ( ) | * + ? \, and in a class - too, are
   plain only so. No class, group or alternative is empty, and no pattern matches the empty string. Bytes are no
   letters: in UTF-8 an accented letter is two of them, and a class with it a class of two bytes; write a group of
   alternatives, or the range of bytes 128 to 255.

   Refusals, in this order:
     DESK_LIMIT    more than 62 patterns: place 62;
     DESK_PATTERN  a pattern is bad: place, counted from the pattern's own first byte, is the first byte that no pattern
                   could have there, or the pattern's length where it ends too early or matches the empty string;
                   detail is its number, the lowest of the bad ones;
     DESK_LIMIT    more than 256 bytes and classes in all patterns together: place 256. */
uint32_t desk_patterns(const uint8_t *patterns, size_t patterns_len, const uint64_t *lengths, size_t lengths_len,
                       uint8_t *answer, size_t answer_len);

/* Makes the machine of the patterns and cuts a line into tokens: the longest match wins, and among equals the lowest
   pattern; a space (byte 32) where a token would start is dropped, even if a pattern could begin with one. A tab, a
   carriage return and a line feed are no spaces: lend the line without its end.

   Refusals, in this order; up to and including the last of this list nothing but the answer changes:
     the refusals of desk_patterns;
     DESK_STATES   the machine would have more than 256 states: place 256;
     DESK_ROOM     detail DESK_CUT_ROOM_MACHINE: the machine has more cells than were lent: place is how many it has.
   Then the machine is written, 257 cells for each state, and cells beyond it are unchanged. A state is a row: the next
   state for each byte, then the token, DESK_CUT_NONE where there is none. Along the line, place is the byte, counted
   from 0, where that token starts:
     DESK_NO_TOKEN no pattern matches what begins there;
     DESK_ROOM     detail DESK_CUT_ROOM_TOKENS: a token is there, and `tokens` is full.
   steps is the number of tokens written, done or refused along the line; cells of `tokens` beyond them are unchanged.

   Room: 65,792 machine cells are always enough, and a call that lends none, with at least one pattern, is told how
   many; line_len token cells are always enough (a run takes 4,096 tokens). An empty line makes the machine alone. With
   no pattern there is no machine, and every byte but a space gives DESK_NO_TOKEN. Machine
   stack: some 30 KB, and up to 36 KB with eight nested groups.

   The longest match can take time that is quadratic in the line's length (with `a` and `a*b` on many `a`): who takes
   lines from strangers bounds their length. */
uint32_t desk_cut(const uint8_t *patterns, size_t patterns_len, const uint64_t *lengths, size_t lengths_len,
                  const uint8_t *line, size_t line_len, uint16_t *machine, size_t machine_len,
                  uint8_t *tokens, size_t tokens_len, uint8_t *answer, size_t answer_len);

/* Cuts a line with the cells of a machine that desk_cut made: it answers, and writes to `tokens`, what desk_cut does
   along the line, in time that can be quadratic too, and tells which bytes each token is. The whole buffer that was
   lent to desk_cut may be lent, since no row behind the machine's is reached; with no pattern there is no machine, so
   lend 0 cells. Of any other cells, rows are the whole 257s, at most 256 of them; a next state that names no row, and
   a token that is not below 62, count as none.

   Of the tokens written, the first as many as `ends` has cells get theirs: cell i is the place behind token i's last
   byte. Cells beyond them are unchanged, and too few are no refusal; `ends` may be null with length 0. A token starts
   at the first byte that is no space from the end of the one before on. */
uint32_t desk_cut_with(const uint16_t *machine, size_t machine_len, const uint8_t *line, size_t line_len,
                       uint8_t *tokens, size_t tokens_len, uint64_t *ends, size_t ends_len,
                       uint8_t *answer, size_t answer_len);

/* Writes the sheet of a book: the book as text that can be typed, a line for the four numbers of its header and a line
   for each production. The first line is T, N, the start and P, parted by one space; a production's line is `n` and the
   left side, ` :`, then for each symbol a space, `t` or `n` and its number. Each line ends with a line feed, the last
   one too; numbers are decimal without leading zeros, and nothing else stands in a sheet. House book H:

     4 4 0 6
     n0 : t0 n1
     n1 : t1 n2 n3
     n2 : t2 t1
     n2 :
     n3 : t3 n1
     n3 :

   Refusals, in this order:
     DESK_SHORT, DESK_MARK, DESK_EXTRA, DESK_LIMIT, DESK_SYMBOL of the book, as desk_judge has them; a book with useless
                   nonterminals has a sheet;
     DESK_ROOM     the sheet has more bytes than were lent: place is how many it has, detail 0.
   Refused, the buffer is unchanged. Done, steps is the number of bytes written, and bytes beyond them are unchanged.
   DESK_MOST_SHEET_BYTES are always enough; a caller who lends none (null with length 0) is told how many it takes.
   Machine stack: some 9 KB. */
uint32_t desk_write_sheet(const uint8_t *book, size_t book_len, uint8_t *sheet, size_t sheet_len,
                          uint8_t *answer, size_t answer_len);

/* Reads a sheet and writes its book: with desk_write_sheet, over and back gives the same bytes, either way.

   Refusals, in this order; place counts bytes of the sheet from 0:
     DESK_FORM     the sheet has not the form of one, looked at over its whole length before any value: place is the
                   first byte with which no sheet can go on, or sheet_len where it only breaks off, as without a last
                   line feed;
     one of these two, whichever comes first over the first P + 1 lines:
     DESK_LIMIT    T, N, the start or P is out of range: place is its first digit; or a line has a 17th symbol: place is
                   its letter;
     DESK_SYMBOL   a left side is not below N, a token not below T, a nonterminal not below N: place is its first digit;
     DESK_SHORT    fewer than P lines follow the first: place is sheet_len;
     DESK_EXTRA    more than P do: place is the first byte of the first one too many, whose values are not looked at;
     DESK_ROOM     the book has more bytes than were lent: place is how many it has, detail 0.
   Refused, the buffer is unchanged. Done, steps is the number of bytes written, and bytes beyond them are unchanged.
   DESK_MOST_BOOK_BYTES are always enough. Machine stack: some 3 KB. */
uint32_t desk_read_sheet(const uint8_t *sheet, size_t sheet_len, uint8_t *book, size_t book_len,
                         uint8_t *answer, size_t answer_len);

#ifdef __cplusplus
}
#endif

#endif
