/* How much fits: the header's table, measured. Slides are filed by rising keys, in cases of 1 and of 10, until the first begin or insert is
 * refused; in one case that is never committed; and loaded. Prints the table's lines. */
#include "donzhikar.h"
#include <stdio.h>
#include <stdlib.h>

/* More than any register takes. */
#define MOST_TRIED 9000

static const size_t sizes[][2] = { { 16, 64 }, { 16, 128 }, { 64, 160 }, { 256, 1024 }, { 896, 16384 } };

static uint8_t *zeros(size_t count, size_t size)
{
    uint8_t *bytes = calloc(count, size);
    if (bytes == NULL)
        exit(2);
    return bytes;
}

static struct donzhikar new_register(size_t pages, size_t slots)
{
    struct donzhikar r = { 0 };
    r.work_pages = zeros(pages, DONZHIKAR_PAGE_BYTES);
    r.stable_pages = zeros(pages, DONZHIKAR_PAGE_BYTES);
    r.pages = pages;
    r.work_log = zeros(slots, DONZHIKAR_SLOT_BYTES);
    r.stable_log = zeros(slots, DONZHIKAR_SLOT_BYTES);
    r.slots = slots;
    if (donzhikar_format_in(&r) != DONZHIKAR_DONE)
        exit(2);
    return r;
}

static void give_back(struct donzhikar *r)
{
    free(r->work_pages);
    free(r->stable_pages);
    free(r->work_log);
    free(r->stable_log);
}

/* Where something is refused, the formulas of what is left say so too; and where it is not, they do not. */
static void agree(const struct donzhikar *r, size_t slots_left, size_t pages_left, uint32_t reason)
{
    const int slots_suffice = slots_left >= DONZHIKAR_UPDATE_NEEDS_SLOTS, pages_suffice = pages_left >= DONZHIKAR_UPDATE_NEEDS_PAGES;
    const uint32_t wanted = !slots_suffice ? DONZHIKAR_ERROR_SLOTS_SHORT : !pages_suffice ? DONZHIKAR_ERROR_PAGES_SHORT : DONZHIKAR_DONE;
    if (reason != wanted) {
        fprintf(stderr, "%zu x %zu: what is left says %u, insert says %u\n", r->pages, r->slots, (unsigned)wanted, (unsigned)reason);
        exit(1);
    }
}

/* One insert, held to what is left before it. */
static uint32_t insert(struct donzhikar *r, uint32_t batch, uint32_t key)
{
    const size_t slots_left = donzhikar_slots_left(r), pages_left = donzhikar_pages_left(r);
    const uint32_t reason = donzhikar_insert_in(r, batch, key, key);
    agree(r, slots_left, pages_left, reason);
    return reason;
}

/* Files cases of so many slides until one is refused; the slides that are in then. */
static uint32_t filed(size_t pages, size_t slots, uint32_t of)
{
    struct donzhikar r = new_register(pages, slots);
    uint32_t count = 0, batch, reason = DONZHIKAR_DONE;
    while (donzhikar_begin_in(&r, &batch) == DONZHIKAR_DONE) {
        for (uint32_t slide = 0; slide < of && reason == DONZHIKAR_DONE; slide++)
            reason = insert(&r, batch, 1 + count + slide);
        if (reason != DONZHIKAR_DONE || donzhikar_commit_in(&r, batch) != DONZHIKAR_DONE)
            break;
        count += of;
    }
    give_back(&r);
    return count;
}

/* Inserts in one batch until one is refused. */
static uint32_t uncommitted(size_t pages, size_t slots)
{
    struct donzhikar r = new_register(pages, slots);
    uint32_t count = 0, batch;
    if (donzhikar_begin_in(&r, &batch) == DONZHIKAR_DONE)
        while (insert(&r, batch, 1 + count) == DONZHIKAR_DONE)
            count++;
    give_back(&r);
    return count;
}

/* The most slides that are loaded: each one more is tried until one is refused. */
static size_t loaded(size_t pages, size_t slots)
{
    struct donzhikar r = new_register(pages, slots);
    static uint32_t column[MOST_TRIED];
    size_t count = 0;
    for (size_t i = 0; i < MOST_TRIED; i++)
        column[i] = (uint32_t)i + 1;
    while (count < MOST_TRIED && donzhikar_load_in(&r, column, column, count) == DONZHIKAR_DONE)
        count++;
    give_back(&r);
    return count - 1;
}

int main(void)
{
    for (size_t i = 0; i < sizeof sizes / sizeof sizes[0]; i++) {
        const size_t pages = sizes[i][0], slots = sizes[i][1];
        printf(" *   %5zu x %-5zu %24u %19u %20u %14zu\n", pages, slots, (unsigned)uncommitted(pages, slots),
               (unsigned)filed(pages, slots, 1), (unsigned)filed(pages, slots, 10), loaded(pages, slots));
        fflush(stdout);
    }
    return 0;
}
