/* Measures a scene's call with one pass beside it, over and over. */
#ifndef MEASURE_H
#define MEASURE_H

#include "clock.h"
#include "scene.h"

struct measured {
    struct times call, compare, sum;
};

/* One round, added to those before. Each repetition starts from the same bytes and makes the passes before the call, so all of them find
 * the same bytes in the caches. Ends the program where the call is refused. `values` gets the answer's values. */
void measure(const struct scene *scene, int quick, struct measured *to, uint32_t values[2]);

/* The columns that both tables of calls end with: least and median time, the two passes, and how many passes the call takes. */
void print_measured_head(void);
void print_measured(const struct measured *of);

#endif
