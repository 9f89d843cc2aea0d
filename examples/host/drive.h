/* A drive: a file of numbered places. A group of stores is there whole or not at all, after every group before it, and stays.
 *
 * Each place is kept twice, in two blocks of its own, with a checksum in each. A group writes the first copies of its places and flushes,
 * then writes the second ones and flushes. So at every moment one of the two is whole: the new one, or the one from before. This is Lampson
 * and Sturgis's "stable storage" (1979). Each copy says its group's number and how many stores that has, so a group of which a part is
 * there is told from one that is there (group.h).
 *
 * What an opened file shows may be in the system's cache and nowhere else: a killed program left it unflushed, or its flush failed and the
 * system took the blocks for written all the same. So nothing is relied on that was found. All of it is read, filled into a new file, and
 * flushed there, and then this file takes the name.
 *
 * Where a write or a flush fails the program ends with status 2. Nobody knows then what is stored,
 * and a second flush would not tell. A fresh start begins with or without the one group that was being stored, which nobody was told of. */
#ifndef DRIVE_H
#define DRIVE_H

#include <stdint.h>

enum { DRIVE_PLACE_BYTES = 144 };

struct drive {
    const char *path;
    int found;             /* the file as it was found, until the new one has its name; negative where there is none */
    uint32_t found_stripe; /* how its copies stand */
    int file;              /* the new one; negative where the drive is only looked at */
    uint32_t groups;       /* how many the new one has had */
};

/* What a place's two copies are. Where the power failed, or the program ended, during a group's second copies, a second copy may be behind;
 * during its first copies, a first one may be ahead of others of its group that are not there. With the last two the place is lost. */
enum drive_finding {
    DRIVE_WHOLE,
    DRIVE_FIRST_DAMAGED,
    DRIVE_SECOND_DAMAGED,
    DRIVE_SECOND_BEHIND,
    DRIVE_FIRST_AHEAD,
    DRIVE_BOTH_DAMAGED,
    DRIVE_ONLY_AHEAD,
};

struct drive_store {
    uint32_t place;
    uint8_t bytes[DRIVE_PLACE_BYTES];
};

/* Takes the drive of this name for this program alone, and begins its new file. Returns 0 where there is no drive of this name yet.
 * The path is not copied. */
int drive_open(struct drive *d, const char *path);

/* Instead of drive_open: for a drive that is to be made. Where something has this name already the program ends, and that stays as it was. */
void drive_make(struct drive *d, const char *path);

/* Whether drive_open would write over this open file, which is of another use. */
int drive_writes_over(const char *path, int file);

/* Instead of drive_open: for reading alone, beside others that do so, and without one that writes. Nothing on the drive is changed, and
 * none of the calls below but drive_read and drive_close may follow. Where there is no drive of this name the program ends. */
void drive_look(struct drive *d, const char *path);

/* Reads both copies of a place of the drive that was found, until drive_name. Which of them counts is known when all places are read. */
struct reading;
void drive_read(struct drive *d, uint32_t place, struct reading *to);

/* Fills a place of the new file, until drive_name. */
void drive_fill(struct drive *d, uint32_t place, const uint8_t bytes[DRIVE_PLACE_BYTES]);

/* Flushes the new file and gives it the drive's name. When it returns, all that was filled stays, whatever happens. Until then the name
 * leads to what was found. */
void drive_name(struct drive *d);

/* Instead of drive_name: there is no new file, and what was found stays. */
void drive_give_up(struct drive *d);

/* Stores a group, of different places, after drive_name. When it returns, the new bytes stay, whatever happens. */
void drive_store(struct drive *d, const struct drive_store *stores, uint32_t count);

void drive_close(struct drive *d);

/* Ends the program, with status 2. */
void drive_fail(const char *what);

#endif
