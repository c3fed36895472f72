#include "inputs.h"

#include "desk.h"
#include "differential/pick.h"
#include "plain_lines.h"

#include <string.h>

struct inputs in;

static void add_text(const uint8_t *text, size_t length)
{
    length = smaller(length, sizeof in.patterns - in.patterns_length);
    memcpy(in.patterns + in.patterns_length, text, length);
    in.patterns_length += length;
    in.lengths[in.count++] = length;
}

/* A byte that says something in a pattern, or any. */
static uint8_t any_mark(void)
{
    static const uint8_t marks[] = "[]()|*+?\\-";
    return chance(80) ? marks[pick(0, sizeof marks - 2)] : any_tree_byte();
}

/* Damages a text by one byte; gives the new length. */
static size_t damage_text(uint8_t *text, size_t length)
{
    size_t at = pick(0, length);
    switch (pick(0, 3)) {
    case 0:
        memmove(text + at + 1, text + at, length - at);
        text[at] = any_mark();
        return length + 1;
    case 1:
        if (at == length)
            return length;
        memmove(text + at, text + at + 1, length - at - 1);
        return length - 1;
    case 2:
        if (at < length)
            text[at] = any_mark();
        return length;
    default:
        return at;
    }
}

static void add_pattern(size_t size)
{
    static uint8_t text[4 * 4096 + 1];
    const struct tree *tree = make_tree(size);
    in.tree[in.count] = tree;
    size_t length = write_tree(tree, text, sizeof text - 1);
    if (chance(12)) {
        length = damage_text(text, length);
        in.from_trees = false;
    }
    add_text(text, length);
}

/* Lengths that say more or less than the bytes have. */
static void spoil_lengths(void)
{
    in.from_trees = false;
    in.lengths[pick(0, in.count - 1)] = chance(50) ? pick(0, 8) : UINT64_MAX - pick(0, 1);
}

void make_patterns(void)
{
    static const size_t counts[] = { 0, 1, 61, 62, 63, 64 };
    size_t count = chance(90) ? pick(1, 6) : counts[pick(0, 5)];
    size_t size = chance(95) ? pick(1, 8) : pick(20, 130);
    begin_trees();
    in.patterns_length = in.count = 0;
    in.from_trees = true;
    while (in.count < count)
        add_pattern(count > 6 ? pick(1, 5) : pick(1, size));
    if (count > 0 && chance(5))
        spoil_lengths();
}

static void add_piece(void)
{
    uint8_t *end = in.line + in.line_length;
    size_t most = sizeof in.line - in.line_length;
    if (in.count > 0 && chance(85))
        in.line_length += sample_tree(in.tree[pick(0, in.count - 1)], end, most);
    else if (most > 0)
        in.line[in.line_length++] = any_tree_byte();
    for (; chance(45) && in.line_length < sizeof in.line; in.line_length++)
        in.line[in.line_length] = ' ';
}

void make_line(void)
{
    size_t pieces = chance(90) ? pick(0, 6) : pick(0, 200);
    in.line_length = 0;
    for (; chance(15); in.line_length++)
        in.line[in.line_length] = ' ';
    for (; pieces > 0; pieces--)
        add_piece();
}

/* The number of cells of the patterns' machine, written into the case's cells; 0 where they have none. */
static size_t make_own_machine(void)
{
    uint8_t answer[DESK_ANSWER_SIZE];
    size_t states = 0;
    if (plain_cut(in.patterns, in.patterns_length, in.lengths, in.count, NULL, 0, in.machine, MOST_MACHINE, NULL, 0,
                  answer, sizeof answer) != DESK_DONE)
        return 0;
    plain_cut(in.patterns, in.patterns_length, in.lengths, in.count, NULL, 0, in.machine, 0, NULL, 0, answer,
              sizeof answer);
    for (size_t i = 8; i > 0; i--)
        states = states << 8 | answer[i - 1];
    return states;
}

static void damage_cells(size_t count)
{
    static const uint16_t cells[] = { 0, 1, 2, 61, 62, 255, 256, 65535 };
    for (; in.machine_length > 0 && count > 0; count--)
        in.machine[pick(0, in.machine_length - 1)] = cells[pick(0, 7)];
}

void make_machine_cells(void)
{
    in.machine_length = make_own_machine();
    if (chance(20))
        in.machine_length = pick(0, 600);
    else if (chance(20))
        in.machine_length = smaller(in.machine_length + pick(1, 300), MOST_MACHINE);
    else if (chance(5))
        in.machine_length = MOST_MACHINE;
    if (chance(25))
        damage_cells(pick(1, 40));
}
