#include "desk.h"
#include "plain_lines.h"
#include "timing.h"

#include <string.h>

enum { LONG_LINE = 1 << 20, SHORT_LINE = 30, RUN_OF_LETTERS = 2000, MOST_BYTES = 4096 };

/* Patterns as they are lent, a line to cut, and how often a round makes the call. */
struct workload {
    const char *name;
    uint8_t patterns[MOST_BYTES];
    size_t size;
    uint64_t lengths[DESK_MOST_PATTERNS];
    size_t count;
    const uint8_t *line;
    size_t length;
    size_t times;
};

static struct workload work;
static uint8_t long_line[LONG_LINE], letters[RUN_OF_LETTERS], tokens[LONG_LINE], answer[DESK_ANSWER_SIZE];
static uint16_t machine[DESK_MOST_MACHINE_CELLS];

static const char *const house[] = { "restore", "(St )?[A-Z][a-z]+", "in", "and", NULL };
static const char *const letter_or_run[] = { "a", "a*b", NULL };
static const char *const many_states[] = { "(a|b)*a(a|b)(a|b)(a|b)(a|b)(a|b)(a|b)(a|b)", NULL };

void clear_buffers(void)
{
    memset(tokens, 0, sizeof tokens);
    memset(answer, 0, sizeof answer);
}

static void add_pattern(const char *text, size_t copies)
{
    size_t from = work.size;
    for (; copies > 0; copies--) {
        memcpy(work.patterns + work.size, text, strlen(text));
        work.size += strlen(text);
    }
    work.lengths[work.count++] = work.size - from;
}

static void begin_work(const char *name, const char *const *texts, const uint8_t *line, size_t length, size_t times)
{
    work = (struct workload){ .name = name, .line = line, .length = length, .times = times };
    for (; *texts; texts++)
        add_pattern(*texts, 1);
}

#define EACH_TIME(call) \
    for (size_t turn = 0; turn < work.times; turn++) \
        failures += (call) != 0

#define PATTERNS work.patterns, work.size, work.lengths, work.count
#define ANSWER answer, sizeof answer
#define CUT PATTERNS, work.line, work.length, machine, DESK_MOST_MACHINE_CELLS, tokens, sizeof tokens, ANSWER
#define CUT_WITH machine, DESK_MOST_MACHINE_CELLS, work.line, work.length, tokens, sizeof tokens, NULL, 0, ANSWER

static void patterns_desk(void) { EACH_TIME(desk_patterns(PATTERNS, ANSWER)); }
static void patterns_plain(void) { EACH_TIME(plain_patterns_by_parts(PATTERNS, ANSWER)); }
static void patterns_standings(void) { EACH_TIME(plain_patterns(PATTERNS, ANSWER)); }
static void cut_desk(void) { EACH_TIME(desk_cut(CUT)); }
static void cut_plain(void) { EACH_TIME(plain_cut(CUT)); }
static void with_desk(void) { EACH_TIME(desk_cut_with(CUT_WITH)); }
static void with_plain(void) { EACH_TIME(plain_cut_with(CUT_WITH)); }

#ifdef WITH_FLEX
int house_flex_lex(void);
void *house_flex__scan_bytes(const char *bytes, int length);
void house_flex__delete_buffer(void *buffer);

/* Cuts the line with the scanner that flex makes of the house patterns, and keeps the tokens. */
static int scan(void)
{
    void *buffer = house_flex__scan_bytes((const char *)work.line, (int)work.length);
    size_t count = 0;
    for (int token; (token = house_flex_lex()) != 0; count++)
        tokens[count] = (uint8_t)(token - 1);
    house_flex__delete_buffer(buffer);
    return 0;
}

static void with_flex(void) { EACH_TIME(scan()); }
static job *const flex_job = with_flex;
#else
static job *const flex_job = NULL;
#endif

/* Prints a figure, with a third way beside it under its name, or none. */
static void print_beside(const char *what, const char *unit, double units, job *desk, job *plain, job *third,
                         const char *name)
{
    print_figure(&(struct figure){ what, work.name, unit, units * (double)work.times, desk, plain, third, name });
}

static void print_work(const char *what, const char *unit, double units, job *desk, job *plain)
{
    print_beside(what, unit, units, desk, plain, NULL, NULL);
}

static void print_patterns(void)
{
    begin_work("house", house, NULL, 0, 5000);
    print_beside("patterns", "call", 1, patterns_desk, patterns_plain, patterns_standings, "standings");
    begin_work("256 positions", (const char *const[]){ NULL }, NULL, 0, 500);
    add_pattern("a", 100);
    add_pattern("b", 100);
    add_pattern("[ab]", 56);
    print_beside("patterns", "call", 1, patterns_desk, patterns_plain, patterns_standings, "standings");
}

/* Sixty-two words of four letters. */
static void make_words(void)
{
    char word[5] = "abcd";
    begin_work("62 words", (const char *const[]){ NULL }, NULL, 0, 50);
    for (size_t k = 0; k < DESK_MOST_PATTERNS; k++) {
        word[0] = (char)('a' + k % 26);
        word[3] = (char)('a' + k / 26);
        add_pattern(word, 1);
    }
}

static void print_machines(void)
{
    begin_work("house", house, NULL, 0, 200);
    print_work("machine", "call", 1, cut_desk, cut_plain);
    make_words();
    print_work("machine", "call", 1, cut_desk, cut_plain);
    begin_work("255 letters", (const char *const[]){ NULL }, NULL, 0, 10);
    add_pattern("a", 255);
    print_work("machine", "call", 1, cut_desk, cut_plain);
    begin_work("256 states", many_states, NULL, 0, 10);
    print_work("machine", "call", 1, cut_desk, cut_plain);
}

/* House lines one behind the other, without their ends. */
static void make_long_line(void)
{
    static const char line[] = "restore Anne in Ghent and Mary in Bruges and St Bavo ";
    for (size_t at = 0; at < LONG_LINE; at += sizeof line - 1)
        memcpy(long_line + at, line, LONG_LINE - at < sizeof line - 1 ? LONG_LINE - at : sizeof line - 1);
    memset(long_line + LONG_LINE - 64, ' ', 64);
}

static void print_cuts(void)
{
    make_long_line();
    begin_work("1 MB of house lines", house, long_line, LONG_LINE, 1);
    if (desk_cut(CUT) != DESK_DONE)
        fail("the house lines are not cut");
    print_beside("cut with", "byte", LONG_LINE, with_desk, with_plain, flex_job, "flex");
    begin_work("house, 30 bytes", house, long_line, SHORT_LINE, 20000);
    print_beside("cut with", "call", 1, with_desk, with_plain, flex_job, "flex");
    begin_work("house, 30 bytes", house, long_line, SHORT_LINE, 200);
    print_work("cut", "call", 1, cut_desk, cut_plain);
    memset(letters, 'a', sizeof letters);
    begin_work("2,000 a, quadratic", letter_or_run, letters, RUN_OF_LETTERS, 1);
    if (desk_cut(CUT) != DESK_DONE)
        fail("the letters are not cut");
    print_work("cut with", "look", RUN_OF_LETTERS * (RUN_OF_LETTERS + 1.0) / 2, with_desk, with_plain);
}

/* Usage: lines [ROUNDS]. */
int main(int argc, char **argv)
{
    read_rounds(argc, argv);
    print_patterns();
    print_machines();
    print_cuts();
    if (failures > 0)
        fail("a call was refused");
    return 0;
}
