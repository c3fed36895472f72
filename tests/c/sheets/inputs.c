#include "inputs.h"

#include "differential/inputs.h"

#include <stdarg.h>
#include <stdio.h>
#include <string.h>

struct text text;

static void print(const char *format, ...)
{
    va_list values;
    va_start(values, format);
    text.length += (size_t)vsnprintf((char *)text.bytes + text.length, sizeof text.bytes - text.length, format, values);
    va_end(values);
}

/* A number, rarely another one: at a border, or of many digits. */
static void print_number(const char *before, size_t number, size_t percent)
{
    static const char *const others[] = { "0", "1", "15", "61", "62", "63", "64", "65", "125", "126", "127", "128",
                                          "129", "255", "256", "999", "1000", "1001", "4294967296",
                                          "18446744073709551616", "10000000000000000000000000000000000000000" };
    if (pick(0, 9999) < percent)
        print("%s%s", before, others[pick(0, sizeof others / sizeof *others - 1)]);
    else
        print("%s%zu", before, number);
}

static void print_line(const struct production *production, size_t symbols, size_t percent)
{
    print_number("n", production->left, percent);
    print(" :");
    for (size_t i = 0; i < symbols; i++) {
        uint8_t symbol = production->count > 0 ? production->right[i % production->count] : 0;
        print_number(symbol < DESK_NONTERMINAL ? " t" : " n", symbol % DESK_NONTERMINAL, percent);
    }
    print("\n");
}

/* How many lines: mostly as many as the first line says. */
static size_t pick_lines(size_t productions)
{
    switch (pick(0, 15)) {
    case 0:
        return productions - 1;
    case 1:
        return productions + pick(1, 3);
    case 2:
        return pick(0, productions);
    default:
        return productions;
    }
}

static void spoil(void)
{
    size_t at = pick(0, text.length - 1), size = pick(1, 4);
    static const char letters[] = "0123456789 :tn\n\t\r";
    switch (pick(0, 20)) {
    case 0:
        damage(text.bytes, text.length);
        break;
    case 1:
        text.bytes[at] = (uint8_t)letters[pick(0, sizeof letters - 2)];
        break;
    case 2:
        text.length = pick(0, text.length);
        break;
    case 3:
        size = smaller(size, text.length - at);
        memmove(text.bytes + at, text.bytes + at + size, text.length - at - size);
        text.length -= size;
        break;
    case 4:
        size = smaller(size, text.length - at);
        memmove(text.bytes + at + size, text.bytes + at, text.length - at);
        text.length += size;
        break;
    case 5:
        text.length -= 1;
        break;
    case 6:
        text.length = extend(text.bytes, text.length, text.length + 40);
        break;
    default:
        break;
    }
}

void make_text(void)
{
    const struct shape *shape = &in.shape;
    size_t percent = pick(0, 3) == 0 ? pick(1, 400) : 0;
    size_t lines = pick_lines(shape->productions);
    size_t longer = chance(10) ? pick(0, shape->productions - 1) : shape->productions;
    text.length = 0;
    print_number("", shape->terminals, percent);
    print_number(" ", shape->nonterminals, percent);
    print_number(" ", shape->start, percent);
    print_number(" ", shape->productions, percent);
    print("\n");
    for (size_t p = 0; p < lines && text.length < MOST_TEXT / 2; p++) {
        const struct production *production = &shape->production[p % shape->productions];
        print_line(production, p == longer ? pick(15, 18) : production->count, percent);
    }
    spoil();
}
