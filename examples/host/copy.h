/* One copy of a place: the bytes with a mark, the place's number, the group that they were stored with, and a checksum, so that half a copy
 * is never taken for a whole one. */
#ifndef COPY_H
#define COPY_H

#include "drive.h"

enum { COPY_BYTES = DRIVE_PLACE_BYTES + 20 };

/* The stores of one call: the group's number, counted from 1 in each file, and how many stores it has. What a new file is filled with is of
 * no group, which is number 0. */
struct copy_group {
    uint32_t number, stores;
};

void copy_seal(uint8_t copy[COPY_BYTES], uint32_t place, struct copy_group group, const uint8_t bytes[DRIVE_PLACE_BYTES]);

/* Takes the bytes out, and the group. Returns 0, and gives nothing, where the copy is not whole or is another place's. A copy from before
 * there were groups is of none. */
int copy_unseal(const uint8_t copy[COPY_BYTES], uint32_t place, struct copy_group *group, uint8_t bytes[DRIVE_PLACE_BYTES]);

/* Whether a copy has the mark from before there were groups. */
int copy_is_ungrouped(const uint8_t copy[COPY_BYTES]);

#endif
