/* SQLite files a case, and loads slides: in memory or in a file, flushed to the drive or not. */
#include "filer.h"
#include "sqlite_slides.h"
#include <stdlib.h>

enum { BEGIN, INSERT, DELETE, COMMIT, STATEMENTS };

struct opened {
    sqlite3 *base;
    sqlite3_stmt *statements[STATEMENTS];
};

static void step(struct opened *in, int which)
{
    slides_step(in->statements[which], SQLITE_DONE);
}

static struct opened *open_at(const struct scene *scene, const char *folder, const char *name, const char *settings)
{
    static const char *const texts[STATEMENTS] = {
        "BEGIN IMMEDIATE", "INSERT INTO slides VALUES (?, 7)", "DELETE FROM slides WHERE key = ?", "COMMIT",
    };
    struct opened *in = calloc(1, sizeof *in);
    if (in == NULL)
        exit(2);
    in->base = slides_open(scene, folder, name, settings);
    for (int i = 0; i < STATEMENTS; i++)
        in->statements[i] = slides_prepare(in->base, texts[i]);
    return in;
}

static void *open_memory(const struct scene *scene, const char *folder)
{
    return open_at(scene, folder, NULL, "");
}

static void *open_file(const struct scene *scene, const char *folder)
{
    return open_at(scene, folder, "sqlite", "PRAGMA journal_mode = WAL; PRAGMA synchronous = OFF");
}

static void *open_rollback(const struct scene *scene, const char *folder)
{
    return open_at(scene, folder, "sqlite-rollback", "PRAGMA journal_mode = DELETE; PRAGMA synchronous = FULL");
}

static void *open_ahead(const struct scene *scene, const char *folder)
{
    return open_at(scene, folder, "sqlite-ahead", "PRAGMA journal_mode = WAL; PRAGMA synchronous = FULL");
}

/* One transaction, with one of the statements for each key. */
static void each(struct opened *in, int which, const uint32_t *keys, size_t count)
{
    step(in, BEGIN);
    for (size_t i = 0; i < count; i++) {
        sqlite3_bind_int64(in->statements[which], 1, keys[i]);
        step(in, which);
    }
    step(in, COMMIT);
}

static void file(void *opened, const uint32_t keys[CASE_SLIDES])
{
    each(opened, INSERT, keys, CASE_SLIDES);
}

static void take_back(void *opened, const uint32_t keys[CASE_SLIDES])
{
    each(opened, DELETE, keys, CASE_SLIDES);
}

static void load(void *opened, const struct columns *of)
{
    each(opened, INSERT, of->keys, of->keys_length);
}

static void close_base(void *opened)
{
    struct opened *in = opened;
    for (int i = 0; i < STATEMENTS; i++)
        sqlite3_finalize(in->statements[i]);
    sqlite3_close(in->base);
    free(in);
}

const struct filer sqlite_in_memory = { "SQLite in memory", open_memory, file, take_back, close_base, load, NULL, NULL };
const struct filer sqlite_in_file = { "SQLite in a file", open_file, file, take_back, close_base, load, NULL, NULL };
const struct filer sqlite_rollback = { "SQLite, rollback journal", open_rollback, file, take_back, close_base, load, NULL, NULL };
const struct filer sqlite_ahead = { "SQLite, write-ahead log", open_ahead, file, take_back, close_base, load, NULL, NULL };
