/* The clock is the thread's processor time, so a thing that is interrupted is not taken for a slow one. To read it takes a good part of
 * the shortest pass, so its own step is taken off: left in, it would make calls look like fewer passes. */
#define _POSIX_C_SOURCE 199309L
#include "clock.h"
#include <stdlib.h>
#include <string.h>
#include <time.h>

enum { FEWEST_IN_ROUND = 15, STEPS_TRIED = 10000 };
static const double long_enough = 250000;

double now(void)
{
    struct timespec at;
    clock_gettime(CLOCK_THREAD_CPUTIME_ID, &at);
    return (double)at.tv_sec * 1e6 + (double)at.tv_nsec / 1e3;
}

double wall(void)
{
    struct timespec at;
    clock_gettime(CLOCK_MONOTONIC, &at);
    return (double)at.tv_sec * 1e6 + (double)at.tv_nsec / 1e3;
}

/* The least time between two readings of the clock, looked for at the first asking. */
static double step(void)
{
    static double found = 0;
    static int tried = 0;
    for (; tried < STEPS_TRIED; tried++) {
        double from = now();
        double taken = now() - from;
        if (tried == 0 || taken < found)
            found = taken;
    }
    return found;
}

void take(struct times *times, double from, double to)
{
    if (times->count < MOST_TIMES)
        times->micros[times->count++] = to - from - step();
}

double least(const struct times *times)
{
    double found = times->micros[0];
    for (size_t i = 1; i < times->count; i++)
        if (times->micros[i] < found)
            found = times->micros[i];
    return found;
}

static int by_size(const void *a, const void *b)
{
    double x = *(const double *)a, y = *(const double *)b;
    return (x > y) - (x < y);
}

double median(const struct times *times)
{
    static double sorted[MOST_TIMES];
    memcpy(sorted, times->micros, times->count * sizeof sorted[0]);
    qsort(sorted, times->count, sizeof sorted[0], by_size);
    return sorted[times->count / 2];
}

int round_over(size_t repetitions, double began, int quick)
{
    return quick || repetitions == MOST_IN_ROUND || (repetitions >= FEWEST_IN_ROUND && now() - began > long_enough);
}
