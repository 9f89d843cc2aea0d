/* The stable areas on a drive: which place has which page or slot, and a call's stores. */
#include "image.h"
#include "damage.h"
#include "group.h"
#include <errno.h>
#include <stdlib.h>
#include <string.h>

/* ---- memory */

size_t image_page_bytes(const struct image *im)
{
    return im->pages * DONZHIKAR_PAGE_BYTES;
}

size_t image_log_bytes(const struct image *im)
{
    return im->slots * DONZHIKAR_SLOT_BYTES;
}

uint8_t *zeros(size_t length)
{
    uint8_t *bytes = calloc(length == 0 ? 1 : length, 1);
    if (bytes == NULL)
        drive_fail("memory");
    return bytes;
}

void image_lend(struct image *im, size_t pages, size_t slots)
{
    im->pages = pages;
    im->slots = slots;
    im->stable_pages = zeros(image_page_bytes(im));
    im->stable_log = zeros(image_log_bytes(im));
    im->stores = (struct drive_store *)zeros((pages + slots) * sizeof *im->stores);
}

/* ---- one page or slot */

static uint8_t *page_of(uint8_t *pages, size_t p)
{
    return pages + p * DONZHIKAR_PAGE_BYTES;
}

static uint8_t *slot_of(uint8_t *log, size_t s)
{
    return log + s * DONZHIKAR_SLOT_BYTES;
}

static int has_record(const struct image *im, size_t s)
{
    static const uint8_t empty[DONZHIKAR_SLOT_BYTES];
    return s < im->slots && memcmp(slot_of(im->stable_log, s), empty, sizeof empty) != 0;
}

static void keep_part(struct image *im, size_t place, const uint8_t *part, size_t length)
{
    struct drive_store *store = &im->stores[im->store_count++];
    *store = (struct drive_store){ .place = (uint32_t)place };
    memcpy(store->bytes, part, length);
}

static void fill_part(struct image *im, size_t place, const uint8_t *part, size_t length)
{
    uint8_t bytes[DRIVE_PLACE_BYTES] = { 0 };
    memcpy(bytes, part, length);
    drive_fill(&im->drive, (uint32_t)place, bytes);
}

static void take_part(struct image *im, const struct last_group *last, const struct reading *readings, size_t place, uint8_t *part, size_t length)
{
    uint8_t bytes[DRIVE_PLACE_BYTES] = { 0 };
    im->findings[place] = (uint8_t)group_take(last, &readings[place], bytes);
    memcpy(part, bytes, length);
}

/* ---- all of them */

/* Records are stored in empty slots, one after the other, and never changed. So no other slot is looked at: the log may be long. */
static void keep_log(struct image *im)
{
    for (; has_record(im, im->kept_slots); im->kept_slots++)
        keep_part(im, SLOT_PLACE + im->kept_slots, slot_of(im->stable_log, im->kept_slots), DONZHIKAR_SLOT_BYTES);
}

static void keep_group(struct image *im)
{
    if (im->store_count > 0)
        drive_store(&im->drive, im->stores, im->store_count);
    im->store_count = 0;
}

/* No store of a call may be on the drive while an earlier one is not: no page before the records that changed it, no record before those of
 * lower numbers. All are one group. */
void image_keep(struct image *im)
{
    keep_log(im);
    keep_group(im);
}

void image_keep_page(struct image *im, size_t page)
{
    keep_log(im); /* with the page */
    keep_part(im, PAGE_PLACE + page, page_of(im->stable_pages, page), DONZHIKAR_PAGE_BYTES);
    keep_group(im);
}

static void fill_all(struct image *im)
{
    for (size_t p = 0; p < im->pages; p++)
        fill_part(im, PAGE_PLACE + p, page_of(im->stable_pages, p), DONZHIKAR_PAGE_BYTES);
    for (size_t s = 0; s < im->slots; s++)
        fill_part(im, SLOT_PLACE + s, slot_of(im->stable_log, s), DONZHIKAR_SLOT_BYTES);
    while (has_record(im, im->kept_slots))
        im->kept_slots++;
}

static void read_places(struct image *im, size_t first, size_t count, struct reading *readings, struct last_group *last)
{
    for (size_t place = first; place < first + count; place++) {
        drive_read(&im->drive, (uint32_t)place, &readings[place]);
        group_note(last, &readings[place]);
    }
}

static void read_up_to(struct image *im, size_t pages, size_t slots, struct last_group *last)
{
    struct reading *readings = (struct reading *)zeros(PLACES * sizeof *readings);
    read_places(im, PAGE_PLACE, pages, readings, last);
    read_places(im, SLOT_PLACE, slots, readings, last);
    for (size_t p = 0; p < pages; p++)
        take_part(im, last, readings, PAGE_PLACE + p, page_of(im->stable_pages, p), DONZHIKAR_PAGE_BYTES);
    for (size_t s = 0; s < slots; s++)
        take_part(im, last, readings, SLOT_PLACE + s, slot_of(im->stable_log, s), DONZHIKAR_SLOT_BYTES);
    free(readings);
}

/* ---- the drive */

/* How many pages and slots a drive has. Without the counts nothing else is looked for. They are of no group. */
static void read_counts(struct image *im, size_t *pages, size_t *slots)
{
    uint8_t counts[8];
    struct reading reading;
    const struct last_group none = { .found = 0 };
    drive_read(&im->drive, COUNTS_PLACE, &reading);
    take_part(im, &none, &reading, COUNTS_PLACE, counts, sizeof counts);
    damage_ends(im);
    *pages = donzhikar_value(counts, 0);
    *slots = donzhikar_value(counts, 1);
    if (*pages > DONZHIKAR_MOST_PAGES || *slots > DONZHIKAR_MOST_SLOTS) {
        errno = EINVAL;
        drive_fail("it has more pages or slots than a register");
    }
}

static void read_all(struct image *im, size_t pages, size_t slots)
{
    size_t had_pages, had_slots;
    struct last_group last = { .found = 0 };
    read_counts(im, &had_pages, &had_slots);
    image_lend(im, pages > had_pages ? pages : had_pages, slots > had_slots ? slots : had_slots);
    read_up_to(im, had_pages, had_slots, &last);
    damage_ends(im);
    if (group_lacks_stores(&last)) {
        errno = EIO;
        drive_fail("of the last call's stores some are not there");
    }
}

int image_open(struct image *im, const char *path, size_t pages, size_t slots)
{
    int found = drive_open(&im->drive, path);
    if (found)
        read_all(im, pages, slots);
    else
        image_lend(im, pages, slots);
    return found;
}

void image_look(struct image *im, const char *path, size_t pages, size_t slots)
{
    drive_look(&im->drive, path);
    read_all(im, pages, slots);
}

void image_renew(struct image *im)
{
    const size_t counts[2] = { im->pages, im->slots };
    uint8_t bytes[DRIVE_PLACE_BYTES] = { 0 };
    for (int i = 0; i < 8; i++)
        bytes[i] = (uint8_t)(counts[i / 4] >> (24 - 8 * (i % 4)));
    drive_fill(&im->drive, COUNTS_PLACE, bytes);
    fill_all(im);
    drive_name(&im->drive);
    im->is_renewed = 1;
}

void image_make(struct image *im, const char *path)
{
    drive_make(&im->drive, path);
    image_renew(im);
}

void image_close(struct image *im)
{
    drive_close(&im->drive);
    free(im->stable_pages);
    free(im->stable_log);
    free(im->stores);
}
