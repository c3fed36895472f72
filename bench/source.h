#ifndef SOURCE_H
#define SOURCE_H

#include <stddef.h>
#include <stdint.h>

/* What the parsers made by bison read and record: tokens in, productions out, each a byte as the desk has them. */
struct source {
    const uint8_t *tokens;
    size_t count;
    size_t next;
    uint8_t *list;
    size_t listed;
};

/* Bison numbers its tokens from 258 on in the order they are declared, and 0 is the end. */
static inline int next_token(struct source *source)
{
    return source->next < source->count ? 258 + source->tokens[source->next++] : 0;
}

static inline void record(struct source *source, uint8_t production)
{
    source->list[source->listed++] = production;
}

int house_parse(struct source *source);
int json_parse(struct source *source);

#endif
