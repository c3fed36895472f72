#ifndef TIMING_H
#define TIMING_H

#include <stddef.h>

/* Ways of doing the same thing, timed in turn. */
typedef void job(void);

/* How many rounds are made, and how many calls were refused. */
extern unsigned rounds;
extern unsigned long failures;

/* What the jobs leave behind is cleared before each is timed. */
void clear_buffers(void);

/* What is timed: the desk's job, the plain one, and by a name of its own a third one, which may be null; so many units a
   round. */
struct figure {
    const char *what;
    const char *name;
    const char *unit;
    double units;
    job *desk;
    job *plain;
    job *third;
    const char *third_name;
};

/* Times the jobs round by round in turn, and prints the best round of each. */
void print_figure(const struct figure *figure);

/* Reads the number of rounds from the command line. */
void read_rounds(int argc, char **argv);

/* Ends the program with what is wrong. */
void fail(const char *what);

#endif
