#ifndef PLAIN_POSITIONS_H
#define PLAIN_POSITIONS_H

#include "patterns.h"

#include <string.h>

/* Patterns read by alternation, sequence, repetition and group, which call each other, into the tables of positions. */

enum { POSITION_WORDS = 4, POINT_WORDS = 5 };

/* For each byte the positions that read it; for each position the points that can come after it, then what is first. */
struct tables {
    uint64_t readers[256][POSITION_WORDS];
    uint64_t follow[MOST_POSITIONS + 1][POINT_WORDS];
};

/* A part of a pattern: bad at a place, or good up to it, the positions so far, what it can begin and end with. */
struct part {
    bool good;
    size_t at;
    size_t count;
    bool empty;
    uint64_t first[POSITION_WORDS];
    uint64_t last[POSITION_WORDS];
};

/* What is read: the pattern, and the tables to fill. */
struct source {
    struct text text;
    struct tables *tables;
};

static struct part bad_at(size_t place)
{
    return (struct part){ .good = false, .at = place };
}

static bool stands(const struct source *source, size_t at, char byte)
{
    return at < source->text.length && source->text.bytes[at] == (uint8_t)byte;
}

static void put_point(uint64_t *words, size_t point)
{
    words[point / 64] |= UINT64_C(1) << point % 64;
}

static void unite_positions(uint64_t *words, const uint64_t *others)
{
    for (size_t i = 0; i < POSITION_WORDS; i++)
        words[i] |= others[i];
}

/* Whatever is in `first` can come after each position of `last`. */
static void lead(struct tables *tables, const uint64_t *last, const uint64_t *first)
{
    for (size_t i = 0; i < POSITION_WORDS; i++)
        for (uint64_t word = last[i]; word != 0; word &= word - 1)
            unite_positions(tables->follow[64 * i + (size_t)__builtin_ctzll(word)], first);
}

static bool is_special(uint8_t byte, bool in_class)
{
    return (byte != 0 && strchr("[]()|*+?\\", byte)) || (in_class && byte == '-');
}

/* A byte at a place, plain or behind an escape; gives its own place, or -1 with the bad place. */
static long letter_at(const struct source *source, size_t at, bool in_class, size_t *bad)
{
    *bad = at;
    if (at >= source->text.length)
        return -1;
    if (source->text.bytes[at] != '\\')
        return is_special(source->text.bytes[at], in_class) ? -1 : (long)at;
    *bad = at + 1;
    return at + 1 < source->text.length ? (long)(at + 1) : -1;
}

/* A position that reads the bytes from low to high; past the limit it is counted and not stored. */
static void read_span(const struct source *source, size_t count, uint8_t low, uint8_t high)
{
    if (count < MOST_POSITIONS)
        for (size_t byte = low; byte <= high; byte++)
            put_point(source->tables->readers[byte], count);
}

static struct part one_position(size_t at, size_t count)
{
    struct part part = { .good = true, .at = at, .count = count + (count <= MOST_POSITIONS) };
    if (count < MOST_POSITIONS) {
        put_point(part.first, count);
        put_point(part.last, count);
    }
    return part;
}

/* A class from behind its bracket on. */
static struct part class_at(const struct source *source, size_t at, size_t count)
{
    do {
        size_t bad;
        long low = letter_at(source, at, true, &bad), high = low;
        if (low < 0)
            return bad_at(bad);
        at = (size_t)low + 1;
        if (stands(source, at, '-')) {
            high = letter_at(source, at + 1, true, &bad);
            if (high < 0)
                return bad_at(bad);
            if (source->text.bytes[high] < source->text.bytes[low])
                return bad_at((size_t)high);
            at = (size_t)high + 1;
            if (stands(source, at, '-'))
                return bad_at(at);
        }
        read_span(source, count, source->text.bytes[low], source->text.bytes[high]);
    } while (!stands(source, at, ']'));
    return one_position(at + 1, count);
}

static struct part single_at(const struct source *source, size_t at, size_t count)
{
    size_t bad;
    if (stands(source, at, '['))
        return class_at(source, at + 1, count);
    long letter = letter_at(source, at, false, &bad);
    if (letter < 0)
        return bad_at(bad);
    read_span(source, count, source->text.bytes[letter], source->text.bytes[letter]);
    return one_position((size_t)letter + 1, count);
}

static struct part alternation(const struct source *source, size_t at, size_t groups, size_t count);

static struct part group(const struct source *source, size_t at, size_t groups, size_t count)
{
    if (groups == 0)
        return bad_at(at);
    struct part inside = alternation(source, at + 1, groups - 1, count);
    if (!inside.good)
        return inside;
    if (!stands(source, inside.at, ')'))
        return bad_at(inside.at);
    inside.at++;
    return inside;
}

static struct part repetition(const struct source *source, size_t at, size_t groups, size_t count)
{
    struct part item = stands(source, at, '(') ? group(source, at, groups, count) : single_at(source, at, count);
    if (!item.good || item.at == source->text.length)
        return item;
    uint8_t sign = source->text.bytes[item.at];
    if (sign == '*' || sign == '+')
        lead(source->tables, item.last, item.first);
    item.empty = item.empty || sign == '*' || sign == '?';
    item.at += sign == '*' || sign == '+' || sign == '?';
    return item;
}

/* Whether another item must come: not at the end, at a bar, or at the end of an open group. */
static bool goes_on(const struct source *source, size_t at, size_t groups)
{
    return at < source->text.length && !stands(source, at, '|') && !(stands(source, at, ')') && groups < MOST_GROUPS);
}

static struct part sequence(const struct source *source, size_t at, size_t groups, size_t count)
{
    struct part whole = repetition(source, at, groups, count);
    while (whole.good && goes_on(source, whole.at, groups)) {
        struct part next = repetition(source, whole.at, groups, whole.count);
        if (!next.good)
            return next;
        lead(source->tables, whole.last, next.first);
        if (whole.empty)
            unite_positions(whole.first, next.first);
        if (next.empty)
            unite_positions(next.last, whole.last);
        memcpy(whole.last, next.last, sizeof whole.last);
        whole.empty = whole.empty && next.empty;
        whole.at = next.at;
        whole.count = next.count;
    }
    return whole;
}

static struct part alternation(const struct source *source, size_t at, size_t groups, size_t count)
{
    struct part whole = sequence(source, at, groups, count);
    while (whole.good && stands(source, whole.at, '|')) {
        struct part next = sequence(source, whole.at + 1, groups, whole.count);
        if (!next.good)
            return next;
        unite_positions(whole.first, next.first);
        unite_positions(whole.last, next.last);
        whole.empty = whole.empty || next.empty;
        whole.at = next.at;
        whole.count = next.count;
    }
    return whole;
}

/* A whole pattern: what it can begin with comes first, and its end can come after what it can end with. */
static struct part read_pattern(const struct source *source, size_t k, size_t count)
{
    struct part whole = alternation(source, 0, MOST_GROUPS, count);
    if (!whole.good || whole.empty)
        return bad_at(whole.at);
    unite_positions(source->tables->follow[MOST_POSITIONS], whole.first);
    for (size_t i = 0; i < POSITION_WORDS; i++)
        for (uint64_t word = whole.last[i]; word != 0; word &= word - 1)
            put_point(source->tables->follow[64 * i + (size_t)__builtin_ctzll(word)], MOST_POSITIONS + k);
    return whole;
}

static bool read_patterns(struct patterns patterns, struct tables *tables, struct answer *answer)
{
    size_t count = 0;
    if (patterns.count > MOST_PATTERNS)
        return refuse(answer, LIMIT, MOST_PATTERNS, 0);
    memset(tables, 0, sizeof *tables);
    for (size_t k = 0; k < patterns.count; k++) {
        struct source source = { next_text(&patterns, k), tables };
        struct part whole = read_pattern(&source, k, count);
        if (!whole.good)
            return refuse(answer, PATTERN, whole.at, k);
        count = whole.count;
    }
    return count <= MOST_POSITIONS || refuse(answer, LIMIT, MOST_POSITIONS, 0);
}

#endif
