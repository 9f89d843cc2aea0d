/* A host: one register on one drive. Each call returns what the register's own call returns (donzhikar.h), and only once everything that
 * it stored is on the drive. The answer's two values are in `values`, for donzhikar_value. */
#ifndef HOST_H
#define HOST_H

#include "columns.h"
#include "donzhikar.h"
#include "image.h"

struct host {
    struct image image;
    uint8_t *work_pages, *work_log;
    uint8_t desk[DONZHIKAR_DESK_BYTES];
    uint8_t values[DONZHIKAR_VALUES_BYTES];
    uint32_t restart, ended, redone; /* what restart returned, and its two values */
    size_t fitting;                  /* after an import's 18: how many of its slides fit */
    int only_reads;
};

/* Opens the drive of this name, or makes one with a newly formatted register, and restarts the register. A drive that has fewer pages or
 * slots than asked for grows first. Returns what format or restart returns: after restart's 17 or 18, start again and ask for more.
 * Copies on the drive that were repaired are named on standard error. */
uint32_t host_start(struct host *h, const char *path, size_t pages, size_t slots);

/* The same for a drive that is there, in memory alone: nothing on the drive is changed. Calls that store may not follow. */
uint32_t host_look(struct host *h, const char *path, size_t pages, size_t slots);

/* Makes a drive of this name with a register that holds the slides of the columns. Returns what load returns; where it is refused there is no
 * drive. Where something has the name the program ends, and that stays as it was. Only host_stop may follow. */
uint32_t host_import(struct host *h, const char *path, size_t pages, size_t slots, const struct slide_columns *of);

void host_stop(struct host *h);

uint32_t host_begin(struct host *h);
uint32_t host_fetch(struct host *h, uint32_t batch, uint32_t key);
uint32_t host_next(struct host *h, uint32_t batch, uint32_t key);
uint32_t host_previous(struct host *h, uint32_t batch, uint32_t key);
uint32_t host_insert(struct host *h, uint32_t batch, uint32_t key, uint32_t value);
uint32_t host_delete(struct host *h, uint32_t batch, uint32_t key);
uint32_t host_mark(struct host *h, uint32_t batch);
uint32_t host_return(struct host *h, uint32_t batch, uint32_t mark);
uint32_t host_commit(struct host *h, uint32_t batch);
uint32_t host_abort(struct host *h, uint32_t batch);
uint32_t host_write_out(struct host *h, uint32_t page);

#endif
