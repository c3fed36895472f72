#include "plain_lines.h"

#include "plain/cut.h"
#include "plain/machine.h"
#include "plain/standings.h"

uint32_t plain_patterns(const uint8_t *patterns, size_t patterns_len, const uint64_t *lengths, size_t lengths_len,
                        uint8_t *answer, size_t answer_len)
{
    struct answer result = { 0 };
    if (answer_len < ANSWER_SIZE)
        return ROOM;
    judge_patterns((struct patterns){ patterns, patterns_len, lengths, lengths_len }, &result);
    return give(&result, answer);
}

uint32_t plain_patterns_by_parts(const uint8_t *patterns, size_t patterns_len, const uint64_t *lengths,
                                 size_t lengths_len, uint8_t *answer, size_t answer_len)
{
    struct tables tables;
    struct answer result = { 0 };
    if (answer_len < ANSWER_SIZE)
        return ROOM;
    read_patterns((struct patterns){ patterns, patterns_len, lengths, lengths_len }, &tables, &result);
    return give(&result, answer);
}

uint32_t plain_cut(const uint8_t *patterns, size_t patterns_len, const uint64_t *lengths, size_t lengths_len,
                   const uint8_t *line, size_t line_len, uint16_t *machine, size_t machine_len,
                   uint8_t *tokens, size_t tokens_len, uint8_t *answer, size_t answer_len)
{
    static struct tables tables;
    static struct machine made;
    struct answer result = { 0 };
    if (answer_len < ANSWER_SIZE)
        return ROOM;
    if (read_patterns((struct patterns){ patterns, patterns_len, lengths, lengths_len }, &tables, &result)
        && make_machine(&made, &tables, &result)) {
        size_t cells = made.states * ROW_CELLS;
        if (machine_len < cells) {
            refuse(&result, ROOM, cells, MACHINE_DETAIL);
        } else {
            if (cells > 0)
                memcpy(machine, made.rows, cells * sizeof *machine);
            cut_line((struct rows){ machine, made.states }, line, line_len, tokens, tokens_len, NULL, 0, &result);
        }
    }
    return give(&result, answer);
}

uint32_t plain_cut_with(const uint16_t *machine, size_t machine_len, const uint8_t *line, size_t line_len,
                        uint8_t *tokens, size_t tokens_len, uint64_t *ends, size_t ends_len,
                        uint8_t *answer, size_t answer_len)
{
    struct answer result = { 0 };
    size_t rows = machine_len / ROW_CELLS;
    if (answer_len < ANSWER_SIZE)
        return ROOM;
    cut_line((struct rows){ machine, rows < MOST_STATES ? rows : MOST_STATES }, line, line_len, tokens, tokens_len,
             ends, ends_len, &result);
    return give(&result, answer);
}
