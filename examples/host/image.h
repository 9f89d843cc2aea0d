/* The image: the register's stable areas, in memory for the calls and on the drive to stay. */
#ifndef IMAGE_H
#define IMAGE_H

#include "donzhikar.h"
#include "drive.h"

/* The places: one for the two counts, then the pages, then the slots. Pages and slots have room to grow to their most. */
enum {
    COUNTS_PLACE = 0,
    PAGE_PLACE = 1,
    SLOT_PLACE = PAGE_PLACE + DONZHIKAR_MOST_PAGES,
    PLACES = SLOT_PLACE + DONZHIKAR_MOST_SLOTS,
};

struct image {
    struct drive drive;
    uint8_t findings[PLACES]; /* what was found at each place, a drive_finding */
    int is_renewed;           /* so all of it is whole now */
    size_t pages, slots;
    uint8_t *stable_pages, *stable_log;
    size_t kept_slots;          /* how many slots the drive holds full: calls store in those after them, by rising number */
    struct drive_store *stores; /* those of the last call */
    uint32_t store_count;
};

size_t image_page_bytes(const struct image *im);
size_t image_log_bytes(const struct image *im);

/* So many bytes of zeros, or the end of the program. */
uint8_t *zeros(size_t length);

/* Stable areas of so many pages and slots, all zero, of no drive yet. */
void image_lend(struct image *im, size_t pages, size_t slots);

/* Reads the stable areas from the drive of this name. Where it has fewer pages or slots than asked for, zeros are added. Returns 0, with
 * areas of zeros, where there is no such drive. Nothing is relied on before image_renew: what is read may not stay.
 * Where a place has no copy that can be taken the program ends with status 2, and says which. */
int image_open(struct image *im, const char *path, size_t pages, size_t slots);

/* The same for a drive that is there, and stays as it is: neither image_renew nor image_keep may follow. */
void image_look(struct image *im, const char *path, size_t pages, size_t slots);

/* Writes the stable areas out anew, as they stand in memory: all of them, or the drive is as it was found. From then on they stay. */
void image_renew(struct image *im);

/* Makes a drive of this name that has the stable areas, as they stand in memory: all of them, or there is none. Where something has the name
 * the program ends, and that stays as it was. */
void image_make(struct image *im, const char *path);

/* Stores what the last call did, all of it or nothing: the new records, and of a write-out that is done the page too. */
void image_keep(struct image *im);
void image_keep_page(struct image *im, size_t page);

void image_close(struct image *im);

#endif
