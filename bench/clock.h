/* Times of a thing that is done again and again: the least, and the one in the middle. */
#ifndef CLOCK_H
#define CLOCK_H

#include <stddef.h>

/* A table is measured in rounds over all its rows, so a slow stretch of the machine does not fall on one row alone. */
enum { ROUNDS = 3, MOST_IN_ROUND = 700, MOST_TIMES = ROUNDS * MOST_IN_ROUND };

struct times {
    size_t count;
    double micros[MOST_TIMES];
};

/* Microseconds that this program has had the processor: what other programs take is not in it. */
double now(void);

/* Microseconds that went by, for what waits for the drive: other programs are in it. */
double wall(void);

/* Adds the time from one moment to another, less what it takes to read the clock. */
void take(struct times *times, double from, double to);

/* What other programs do to the caches only adds, so the least is nearest to the thing's own time. */
double least(const struct times *times);

double median(const struct times *times);

/* Whether a row has been tried often enough in this round: often, but not for long. `quick` is for seeing that the benchmark runs. */
int round_over(size_t repetitions, double began, int quick);

#endif
