/* The calls, each staged on a register of committed cases: what must come before it, and its numbers. Load stands by itself: what was there
 * does not matter to it. */
#ifndef STAGING_H
#define STAGING_H

#include "scene.h"

struct named_call {
    const char *name;
    char letter;
};

enum { CALLS = 13 };
extern const struct named_call calls[CALLS];

enum { FILLS = 3 };

/* How full the log is: with one slide filed, half, or so full that the call only just finds room. */
enum fill { EMPTY, HALF, FULL };
extern const char *const fill_names[FILLS];

/* Of the register's slots, those that are left free by a full log in which one more batch can make one update: 01's reserves. */
enum { SPARE_FOR_UPDATE = 67, SPARE_FOR_BEGIN = 3 };

/* Makes the calls that must come before, and sets the next one. In a full log begin, fetch, next, mark, write-out and format find it fuller
 * than the calls that need the reserves of an update. */
void stage(struct scene *scene, char letter, enum fill fill);

/* An open batch with one update, all its records stored, and the power about to fail: what a restart meets. */
void stage_restart(struct scene *scene);

/* Every page is written out. */
void write_out_all(struct scene *scene);

/* A fetch while eight batches are open, with as many updates pending as the reserves allow. */
void stage_pending(struct scene *scene);

/* A load of as many slides as the pages take. Its first number says how many. */
void stage_load(struct scene *scene);

/* A return that takes back as many updates of one batch as the reserves allow. */
void stage_return(struct scene *scene);

#endif
