/* One pass: the bytes that a call's time is held against.
 *
 * The bytes are those of the working pages, of the working log, and of the stable log's first slots, as many as the desk says are stored.
 * The rest of the stable log and the stable pages are not among them.
 *
 *   compare   memcmp of each of the three with an equal copy of it
 *   sum       the sum of each of the three as words of 64 bits, one word a step
 */
#ifndef PASS_H
#define PASS_H

#include "scene.h"

/* 0 where all are equal. */
int pass_compare(const struct scene *scene, const struct scene *copy);

uint64_t pass_sum(const struct scene *scene);

size_t pass_bytes(const struct scene *scene);

#endif
