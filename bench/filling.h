/* Fills a register's log with the records of cases, each committed. */
#ifndef FILLING_H
#define FILLING_H

#include "scene.h"

/* A new register with one slide in it: three records. */
void new_register(struct scene *scene, uint32_t pages, uint32_t slots);

/* Files and takes out slides, up to ten a batch, until few records are missing to `goal`; then tops up. */
void fill_to(struct scene *scene, uint32_t goal);

/* Batches that change nothing, until there are `goal` records, or one less. */
void top_up(struct scene *scene, uint32_t goal);

#endif
