#include "examples.h"

#include "check.h"

#include <string.h>

enum { MANY = 1000000 };

/* Patterns as strings of bytes; a null one ends them. */
struct set {
    const char *const *texts;
    struct wanted wanted;
};

#define TEXTS(...) (const char *const[]){ __VA_ARGS__, NULL }
#define GOOD { DESK_DONE, 0, 0, 0, 0 }
#define BAD(place, pattern) { DESK_PATTERN, place, pattern, 0, 0 }

static uint8_t bytes[2 * MANY];
static uint64_t lengths[64];

/* Checks a call with every kind of answer buffer and of empty slice; nothing but the answer changes. */
static void check_patterns(const char *name, size_t size, size_t count, struct wanted wanted)
{
    static const size_t sizes[] = ANSWER_SIZES;
    const uint8_t *given = (const uint8_t *)lengths;
    for (size_t i = 0; i < 2 * COUNT(sizes); i++) {
        struct lent answer = lend_bytes(sizes[i / 2]);
        bool served = sizes[i / 2] >= DESK_ANSWER_SIZE;
        empty_is_null = i % 2 != 0;
        if (served)
            want_answer(&answer, &wanted);
        const void *laid = lay(TABLE_SLOT, given, count * sizeof lengths[0]);
        uint32_t number = desk_patterns(lay(BOOK_SLOT, bytes, size), size, laid, count, lent_bytes(&answer),
                                        sizes[i / 2]);
        check(name, "patterns number", number == (served ? wanted.number : DESK_ROOM));
        check(name, "patterns", laid_holds(BOOK_SLOT, bytes, size));
        check(name, "lengths", laid_holds(TABLE_SLOT, given, count * sizeof lengths[0]));
        check_buffer(name, "patterns answer", &answer);
    }
}

static void check_set(const struct set *set)
{
    size_t size = 0, count = 0;
    for (; set->texts[count]; count++) {
        lengths[count] = strlen(set->texts[count]);
        memcpy(bytes + size, set->texts[count], lengths[count]);
        size += lengths[count];
    }
    check_patterns(count > 0 ? set->texts[0] : "no pattern", size, count, set->wanted);
}

/* One pattern, and the place where it is refused; a place of -1 for a good one. */
static const struct {
    const char *text;
    int place;
} single[] = {
    { "", 0 }, { "*", 0 }, { "]", 0 }, { "|a", 0 }, { "\\", 1 }, { "a)", 1 }, { "()", 1 }, { "[]", 1 }, { "[+]", 1 },
    { "[-a]", 1 }, { "a**", 2 }, { "a+?", 2 }, { "(a", 2 }, { "a(", 2 }, { "a\\", 2 }, { "a()", 2 }, { "a?", 2 },
    { "a||b", 2 }, { "[a|b]", 2 }, { "[a-]", 3 }, { "[z-a]", 3 }, { "[z-\\a]", 4 }, { "[a-", 3 }, { "[a-b-c]", 4 },
    { "[a\\]", 4 }, { "[A-Z", 4 }, { "(a|)", 3 }, { "a*|b", 4 }, { "(a?)+", 5 }, { "(a*)*", 5 }, { "(((((((((a)))))))))", 8 },
    { "[\xff-\xfe]", 3 },
    { "a-b", -1 }, { ".^$", -1 }, { "[^a]", -1 }, { "x{2}", -1 }, { "[a-a]", -1 }, { "[ -~]", -1 }, { "[\\a-\\b]", -1 },
    { "[\\+\\-]", -1 }, { "((((((((a))))))))", -1 }, { "\n", -1 }, { "\x80\xff", -1 }, { "(a*)*b", -1 },
};

static const struct set sets[] = {
    { TEXTS("restore", "(St )?[A-Z][a-z]+", "in", "and"), GOOD },
    { TEXTS("a", "b*", "("), BAD(2, 1) },
    { TEXTS("a", "(", "b*"), BAD(1, 1) },
    { (const char *const[]){ NULL }, GOOD },
};

static void check_single_patterns(void)
{
    for (size_t i = 0; i < COUNT(single); i++) {
        struct wanted wanted = GOOD;
        if (single[i].place >= 0)
            wanted = (struct wanted)BAD((uint64_t)single[i].place, 0);
        check_set(&(struct set){ TEXTS(single[i].text), wanted });
    }
    bytes[0] = 0;
    lengths[0] = 1;
    check_patterns("byte 0", 1, 1, (struct wanted)GOOD);
}

/* Sixty-three patterns are too many whatever they are, and sixty-two are not. */
static void check_counts(void)
{
    static const char letters[] = { 'a', '(' };
    for (size_t i = 0; i < COUNT(letters); i++)
        for (size_t count = 62; count <= 64; count++) {
            memset(bytes, letters[i], count);
            for (size_t k = 0; k < count; k++)
                lengths[k] = 1;
            struct wanted wanted = GOOD;
            if (count > 62)
                wanted = (struct wanted){ DESK_LIMIT, 62, 0, 0, 0 };
            else if (letters[i] == '(')
                wanted = (struct wanted)BAD(1, 0);
            check_patterns("many patterns", count, count, wanted);
        }
}

/* Adds so many copies of a text to a pattern that ends at `size`. */
static size_t add(size_t size, const char *text, size_t copies)
{
    for (; copies > 0; copies--) {
        memcpy(bytes + size, text, strlen(text));
        size += strlen(text);
    }
    return size;
}

/* 256 positions are allowed, one more is not, and a bad pattern behind them is told first. */
static void check_positions(void)
{
    static const struct {
        const char *last;
        struct wanted wanted;
    } behind[] = {
        { "", GOOD }, { "c", { DESK_LIMIT, 256, 0, 0, 0 } }, { "c*", BAD(2, 3) },
    };
    for (size_t i = 0; i < COUNT(behind); i++) {
        size_t size = add(add(add(0, "a", 100), "b", 100), "[ab]", 56);
        lengths[0] = lengths[1] = 100;
        lengths[2] = size - 200;
        lengths[3] = strlen(behind[i].last);
        check_patterns("256 positions", add(size, behind[i].last, 1), lengths[3] > 0 ? 4 : 3, behind[i].wanted);
    }
    for (size_t size = 255; size <= 258; size++) {
        struct wanted wanted = GOOD;
        if (size > 256)
            wanted = (struct wanted){ DESK_LIMIT, 256, 0, 0, 0 };
        lengths[0] = size;
        check_patterns("one long pattern", add(0, "a", size), 1, wanted);
    }
}

/* Lengths that say more than the bytes have. */
static void check_lengths(void)
{
    add(0, "abcde", 1);
    lengths[0] = 3;
    lengths[1] = 9;
    lengths[2] = 1;
    check_patterns("abc and de", 5, 2, (struct wanted)GOOD);
    check_patterns("nothing left", 5, 3, (struct wanted)BAD(0, 2));
    check_patterns("bytes left over", 5, 1, (struct wanted)GOOD);
    lengths[0] = UINT64_MAX;
    lengths[1] = 1;
    check_patterns("ab", 2, 1, (struct wanted)GOOD);
    check_patterns("ab and nothing", 2, 2, (struct wanted)BAD(0, 1));
}

/* A pattern has no longest length. */
static void check_long_patterns(void)
{
    lengths[0] = add(0, "a", MANY);
    check_patterns("a million bytes", MANY, 1, (struct wanted){ DESK_LIMIT, 256, 0, 0, 0 });
    lengths[0] = add(0, "(", MANY);
    check_patterns("a million groups", MANY, 1, (struct wanted)BAD(8, 0));
    lengths[0] = add(add(add(0, "[", 1), "a", MANY), "]", 1);
    check_patterns("a class of a million bytes", MANY + 2, 1, (struct wanted)GOOD);
}

void check_all_patterns(void)
{
    for (size_t i = 0; i < COUNT(sets); i++)
        check_set(&sets[i]);
    check_single_patterns();
    check_counts();
    check_positions();
    check_lengths();
    check_long_patterns();
}
