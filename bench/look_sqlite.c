/* SQLite finds a slide: a select, alone or after one of its two checks of the whole file. */
#include "looker.h"
#include "sqlite_slides.h"
#include <stdlib.h>
#include <string.h>

struct opened {
    sqlite3 *base;
    sqlite3_stmt *check, *select;
};

static void *open_with(const struct scene *scene, const char *folder, const char *name, const char *check)
{
    struct opened *in = calloc(1, sizeof *in);
    if (in == NULL)
        exit(2);
    in->base = slides_open(scene, folder, name, "");
    in->check = check == NULL ? NULL : slides_prepare(in->base, check);
    in->select = slides_prepare(in->base, "SELECT value FROM slides WHERE key = ?");
    return in;
}

static void *open_unchecked(const struct scene *scene, const char *folder)
{
    return open_with(scene, folder, "sqlite-unchecked", NULL);
}

static void *open_quick(const struct scene *scene, const char *folder)
{
    return open_with(scene, folder, "sqlite-quick", "PRAGMA quick_check");
}

static void *open_integrity(const struct scene *scene, const char *folder)
{
    return open_with(scene, folder, "sqlite-integrity", "PRAGMA integrity_check");
}

/* A check gives one row, "ok", or a row for each fault. */
static void check(struct opened *in)
{
    slides_need(in->base, sqlite3_step(in->check) == SQLITE_ROW);
    slides_need(in->base, strcmp((const char *)sqlite3_column_text(in->check, 0), "ok") == 0);
    slides_step(in->check, SQLITE_DONE);
}

static void look(void *opened, uint32_t key)
{
    struct opened *in = opened;
    if (in->check != NULL)
        check(in);
    sqlite3_bind_int64(in->select, 1, key);
    slides_step(in->select, SQLITE_ROW);
}

static void close_base(void *opened)
{
    struct opened *in = opened;
    sqlite3_finalize(in->check);
    sqlite3_finalize(in->select);
    sqlite3_close(in->base);
    free(in);
}

const struct looker sqlite_unchecked = { "SQLite, select alone", open_unchecked, look, close_base };
const struct looker sqlite_quick = { "quick_check, select", open_quick, look, close_base };
const struct looker sqlite_integrity = { "integrity_check, select", open_integrity, look, close_base };
