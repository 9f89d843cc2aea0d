/* Opening SQLite, and its statements. */
#include "sqlite_slides.h"
#include <stdio.h>
#include <stdlib.h>

void slides_need(sqlite3 *base, int good)
{
    if (!good) {
        fprintf(stderr, "SQLite: %s\n", sqlite3_errmsg(base));
        exit(1);
    }
}

static void run(sqlite3 *base, const char *text)
{
    slides_need(base, sqlite3_exec(base, text, NULL, NULL, NULL) == SQLITE_OK);
}

sqlite3_stmt *slides_prepare(sqlite3 *base, const char *text)
{
    sqlite3_stmt *statement;
    slides_need(base, sqlite3_prepare_v2(base, text, -1, &statement, NULL) == SQLITE_OK);
    return statement;
}

void slides_step(sqlite3_stmt *statement, int wanted)
{
    sqlite3 *base = sqlite3_db_handle(statement);
    slides_need(base, sqlite3_step(statement) == wanted);
    slides_need(base, sqlite3_reset(statement) == SQLITE_OK);
}

static void fill(sqlite3 *base, const struct scene *scene)
{
    run(base, "CREATE TABLE slides (key INTEGER PRIMARY KEY, value INTEGER)");
    run(base, "BEGIN IMMEDIATE");
    sqlite3_stmt *insert = slides_prepare(base, "INSERT INTO slides VALUES (?, 7)");
    for (uint32_t i = scene->oldest; i < scene->newest; i++) {
        sqlite3_bind_int64(insert, 1, key_of(i));
        slides_step(insert, SQLITE_DONE);
    }
    sqlite3_finalize(insert);
    run(base, "COMMIT");
}

sqlite3 *slides_open(const struct scene *scene, const char *folder, const char *name, const char *settings)
{
    char path[512] = ":memory:";
    static const char *const ends[] = { "-journal", "-wal", "-shm", "" };
    sqlite3 *base;
    for (int i = 0; i < 4 && name != NULL; i++) {
        snprintf(path, sizeof path, "%s/%s%s", folder, name, ends[i]);
        remove(path);
    }
    slides_need(NULL, sqlite3_open(path, &base) == SQLITE_OK);
    run(base, settings);
    fill(base, scene);
    return base;
}
