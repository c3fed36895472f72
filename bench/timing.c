#define _POSIX_C_SOURCE 200809L

#include "timing.h"

#include <stdio.h>
#include <stdlib.h>
#include <time.h>

enum { DEFAULT_ROUNDS = 25 };

unsigned rounds = DEFAULT_ROUNDS;
unsigned long failures;

static double time_once(job *run)
{
    struct timespec before, after;
    clear_buffers();
    clock_gettime(CLOCK_PROCESS_CPUTIME_ID, &before);
    run();
    clock_gettime(CLOCK_PROCESS_CPUTIME_ID, &after);
    return (double)(after.tv_sec - before.tv_sec) * 1e9 + (double)(after.tv_nsec - before.tv_nsec);
}

void print_figure(const struct figure *figure)
{
    job *const jobs[] = { figure->desk, figure->plain, figure->third };
    double best[3] = { 0 };
    for (unsigned round = 0; round < rounds; round++)
        for (size_t i = 0; i < 3; i++) {
            double time = jobs[i] ? time_once(jobs[i]) : 0;
            best[i] = round == 0 || time < best[i] ? time : best[i];
        }
    printf("%-8s %-24s desk %10.2f  plain %10.2f  ns a %-5s  ratio %5.2f", figure->what, figure->name,
           best[0] / figure->units, best[1] / figure->units, figure->unit, best[0] / best[1]);
    if (figure->third)
        printf("   %s %8.2f  ratio %5.2f", figure->third_name, best[2] / figure->units, best[0] / best[2]);
    printf("\n");
}

void read_rounds(int argc, char **argv)
{
    if (argc > 1 && strtoul(argv[1], NULL, 10) > 0)
        rounds = (unsigned)strtoul(argv[1], NULL, 10);
}

void fail(const char *what)
{
    fprintf(stderr, "bench: %s\n", what);
    exit(1);
}
