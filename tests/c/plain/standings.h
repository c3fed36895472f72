#ifndef PLAIN_STANDINGS_H
#define PLAIN_STANDINGS_H

#include "patterns.h"

/* One pattern read byte by byte, by a table of where the reader stands. */

enum standing {
    ITEM, MORE, SIGNED, ESCAPED, CLASS, LETTER, RANGE, RANGED, CLASS_ESCAPED, RANGE_ESCAPED, BAD, STANDINGS
};
enum kind { PLAIN, CLASS_OPENS, CLASS_CLOSES, GROUP_OPENS, GROUP_CLOSES, BAR, SIGN, ESCAPE, DASH, KINDS };

static const uint8_t next_standing[STANDINGS][KINDS] = {
    /*                  plain   [      ]     (     )     |     sign    \              -    */
    [ITEM]          = { MORE,   CLASS, BAD,  ITEM, BAD,  BAD,  BAD,    ESCAPED,       MORE },
    [MORE]          = { MORE,   CLASS, BAD,  ITEM, MORE, ITEM, SIGNED, ESCAPED,       MORE },
    [SIGNED]        = { MORE,   CLASS, BAD,  ITEM, MORE, ITEM, BAD,    ESCAPED,       MORE },
    [ESCAPED]       = { MORE,   MORE,  MORE, MORE, MORE, MORE, MORE,   MORE,          MORE },
    [CLASS]         = { LETTER, BAD,   BAD,  BAD,  BAD,  BAD,  BAD,    CLASS_ESCAPED, BAD },
    [LETTER]        = { LETTER, BAD,   MORE, BAD,  BAD,  BAD,  BAD,    CLASS_ESCAPED, RANGE },
    [RANGE]         = { RANGED, BAD,   BAD,  BAD,  BAD,  BAD,  BAD,    RANGE_ESCAPED, BAD },
    [RANGED]        = { LETTER, BAD,   MORE, BAD,  BAD,  BAD,  BAD,    CLASS_ESCAPED, BAD },
    [CLASS_ESCAPED] = { LETTER, LETTER, LETTER, LETTER, LETTER, LETTER, LETTER, LETTER, LETTER },
    [RANGE_ESCAPED] = { RANGED, RANGED, RANGED, RANGED, RANGED, RANGED, RANGED, RANGED, RANGED },
};

static enum kind kind_of(uint8_t byte)
{
    switch (byte) {
    case '[': return CLASS_OPENS;
    case ']': return CLASS_CLOSES;
    case '(': return GROUP_OPENS;
    case ')': return GROUP_CLOSES;
    case '|': return BAR;
    case '*': case '+': case '?': return SIGN;
    case '\\': return ESCAPE;
    case '-': return DASH;
    default: return PLAIN;
    }
}

/* A reader: where it stands, the lower end of a range, the positions, whether the last item can be empty, and for each
   open group whether an alternative before can be, and all items so far of the last one. */
struct reader {
    enum standing standing;
    uint8_t low;
    size_t positions;
    bool item;
    size_t open;
    bool any[MOST_GROUPS + 1];
    bool all[MOST_GROUPS + 1];
};

static bool before_an_item(enum standing standing)
{
    return standing == ITEM || standing == MORE || standing == SIGNED;
}

/* The last item, if there is one, goes to those before it. */
static void close_item(struct reader *r)
{
    if (r->standing == ITEM)
        r->all[r->open] = true;
    else
        r->all[r->open] = r->all[r->open] && r->item;
}

static void close_alternative(struct reader *r)
{
    close_item(r);
    r->any[r->open] = r->any[r->open] || r->all[r->open];
}

static bool closes_range_falling(const struct reader *r, enum standing next, uint8_t byte)
{
    return next == RANGED && byte < r->low;
}

/* Takes a byte that may stand here. */
static void take(struct reader *r, enum kind kind, enum standing next, uint8_t byte)
{
    if (before_an_item(r->standing)) {
        if (kind == SIGN) {
            r->item = r->item || byte != '+';
        } else if (kind == BAR) {
            close_alternative(r);
        } else if (kind == GROUP_CLOSES) {
            close_alternative(r);
            r->item = r->any[r->open--];
        } else {
            close_item(r);
            r->item = false;
        }
        if (kind == GROUP_OPENS)
            r->any[++r->open] = false;
        r->positions += kind == PLAIN || kind == DASH;
    } else {
        r->positions += next == MORE;
    }
    if (next == LETTER)
        r->low = byte;
    r->standing = next;
}

static struct reading read_text(struct text text)
{
    struct reader r = { .standing = ITEM };
    for (size_t i = 0; i < text.length; i++) {
        enum kind kind = kind_of(text.bytes[i]);
        enum standing next = next_standing[r.standing][kind];
        bool outside = before_an_item(r.standing);
        if (next == BAD || closes_range_falling(&r, next, text.bytes[i])
            || (outside && kind == GROUP_OPENS && r.open == MOST_GROUPS)
            || (outside && kind == GROUP_CLOSES && r.open == 0))
            return (struct reading){ true, i, 0 };
        take(&r, kind, next, text.bytes[i]);
    }
    if ((r.standing != MORE && r.standing != SIGNED) || r.open > 0)
        return (struct reading){ true, text.length, 0 };
    close_alternative(&r);
    return (struct reading){ r.any[0], text.length, r.positions };
}

/* Whether the patterns are good; their positions, all together, must be at most 256. */
static bool judge_patterns(struct patterns patterns, struct answer *answer)
{
    size_t positions = 0;
    if (patterns.count > MOST_PATTERNS)
        return refuse(answer, LIMIT, MOST_PATTERNS, 0);
    for (size_t k = 0; k < patterns.count; k++) {
        struct reading reading = read_text(next_text(&patterns, k));
        if (reading.bad)
            return refuse(answer, PATTERN, reading.place, k);
        positions += reading.positions;
    }
    return positions <= MOST_POSITIONS || refuse(answer, LIMIT, MOST_POSITIONS, 0);
}

#endif
