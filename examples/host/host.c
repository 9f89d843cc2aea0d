/* The register over an image: each call, and after those that store, the stores. */
#include "host.h"
#include "damage.h"
#include <stdlib.h>
#include <string.h>

#define AREAS(h)                                                                                                 \
    (h)->work_pages, image_page_bytes(&(h)->image), (h)->image.stable_pages, image_page_bytes(&(h)->image),      \
        (h)->work_log, image_log_bytes(&(h)->image), (h)->image.stable_log, image_log_bytes(&(h)->image), (h)->desk, \
        sizeof (h)->desk, (h)->values, sizeof (h)->values

static void lend_work(struct host *h)
{
    h->work_pages = zeros(image_page_bytes(&h->image));
    h->work_log = zeros(image_log_bytes(&h->image));
}

/* ---- from start to stop */

static int is_too_large(size_t pages, size_t slots)
{
    return pages > DONZHIKAR_MOST_PAGES || slots > DONZHIKAR_MOST_SLOTS;
}

static uint32_t restarted(struct host *h)
{
    h->restart = donzhikar_restart(AREAS(h));
    h->ended = donzhikar_value(h->values, 0);
    h->redone = donzhikar_value(h->values, 1);
    return h->restart;
}

/* A format that the power cuts leaves nothing of use, so it is made in memory. The drive has its name when all of it is there. */
uint32_t host_start(struct host *h, const char *path, size_t pages, size_t slots)
{
    memset(h, 0, sizeof *h);
    if (is_too_large(pages, slots))
        return DONZHIKAR_ERROR_LENGTHS;
    int found = image_open(&h->image, path, pages, slots);
    lend_work(h);
    uint32_t reason = found ? DONZHIKAR_DONE : donzhikar_format(AREAS(h));
    if (reason != DONZHIKAR_DONE) {
        drive_give_up(&h->image.drive);
        return reason;
    }
    image_renew(&h->image);
    damage_print(stderr, &h->image);
    reason = restarted(h);
    image_keep(&h->image);
    return reason;
}

static uint32_t load(struct host *h, const struct slide_columns *of, size_t slides)
{
    return donzhikar_load(AREAS(h), of->keys, slides, of->values, slides);
}

/* How many of these slides fit, where not all do. The register says it, by loading fewer: more slides never need fewer pages. */
static size_t fitting(struct host *h, const struct slide_columns *of)
{
    size_t fit = 0, unfit = of->slides;
    while (unfit - fit > 1) {
        size_t tried = fit + (unfit - fit) / 2;
        if (load(h, of, tried) == DONZHIKAR_DONE)
            fit = tried;
        else
            unfit = tried;
    }
    return fit;
}

/* A load that the power cuts leaves nothing of use, as a format does, so it is made in memory too, and the drive after it. */
uint32_t host_import(struct host *h, const char *path, size_t pages, size_t slots, const struct slide_columns *of)
{
    memset(h, 0, sizeof *h);
    if (is_too_large(pages, slots))
        return DONZHIKAR_ERROR_LENGTHS;
    image_lend(&h->image, pages, slots);
    lend_work(h);
    uint32_t reason = load(h, of, of->slides);
    if (reason == DONZHIKAR_ERROR_PAGES_SHORT)
        h->fitting = fitting(h, of);
    if (reason == DONZHIKAR_DONE)
        image_make(&h->image, path);
    return reason;
}

/* What restart stores stays in memory. */
uint32_t host_look(struct host *h, const char *path, size_t pages, size_t slots)
{
    memset(h, 0, sizeof *h);
    h->only_reads = 1;
    if (is_too_large(pages, slots))
        return DONZHIKAR_ERROR_LENGTHS;
    image_look(&h->image, path, pages, slots);
    lend_work(h);
    return restarted(h);
}

void host_stop(struct host *h)
{
    image_close(&h->image);
    free(h->work_pages);
    free(h->work_log);
}

/* ---- calls that store */

uint32_t host_commit(struct host *h, uint32_t batch)
{
    uint32_t reason = donzhikar_commit(AREAS(h), batch);
    image_keep(&h->image);
    return reason;
}

uint32_t host_write_out(struct host *h, uint32_t page)
{
    uint32_t reason = donzhikar_write_out(AREAS(h), page);
    if (reason == DONZHIKAR_DONE)
        image_keep_page(&h->image, page);
    return reason;
}

/* ---- calls that do not */

uint32_t host_begin(struct host *h)
{
    return donzhikar_begin(AREAS(h));
}

uint32_t host_fetch(struct host *h, uint32_t batch, uint32_t key)
{
    return donzhikar_fetch(AREAS(h), batch, key);
}

uint32_t host_next(struct host *h, uint32_t batch, uint32_t key)
{
    return donzhikar_next(AREAS(h), batch, key);
}

uint32_t host_previous(struct host *h, uint32_t batch, uint32_t key)
{
    return donzhikar_previous(AREAS(h), batch, key);
}

uint32_t host_insert(struct host *h, uint32_t batch, uint32_t key, uint32_t value)
{
    return donzhikar_insert(AREAS(h), batch, key, value);
}

uint32_t host_delete(struct host *h, uint32_t batch, uint32_t key)
{
    return donzhikar_delete(AREAS(h), batch, key);
}

uint32_t host_mark(struct host *h, uint32_t batch)
{
    return donzhikar_mark(AREAS(h), batch);
}

uint32_t host_return(struct host *h, uint32_t batch, uint32_t mark)
{
    return donzhikar_return(AREAS(h), batch, mark);
}

uint32_t host_abort(struct host *h, uint32_t batch)
{
    return donzhikar_abort(AREAS(h), batch);
}
