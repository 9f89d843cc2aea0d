/* Which of a place's copies counts. The stores of one call are a group, and the last group is there whole or not at all.
 *
 * The first copies of a group are flushed before any second copy of it is touched. So where a second copy is of the last group, its first
 * copies were all there. Where none is, and some of its stores are not found, the group is cut: nobody was told of it, the second copies
 * are all from before it, and they count. Groups before the last were flushed whole. */
#ifndef GROUP_H
#define GROUP_H

#include "copy.h"

enum { COPIES = 2 };

/* A place's two copies. */
struct reading {
    int is_whole[COPIES];
    struct copy_group of[COPIES];
    uint8_t bytes[COPIES][DRIVE_PLACE_BYTES];
};

/* The last group, as far as places were noted: at how many of them it is found, and whether in a second copy. Zeros to begin with. */
struct last_group {
    struct copy_group is;
    uint32_t found;
    int has_second;
};

void group_note(struct last_group *last, const struct reading *place);

/* Takes the bytes that count, once all places are noted. */
enum drive_finding group_take(const struct last_group *last, const struct reading *place, uint8_t bytes[DRIVE_PLACE_BYTES]);

/* Whether stores are missing that were there: both copies of a place were damaged, or one while the power failed on the other. */
int group_lacks_stores(const struct last_group *last);

#endif
