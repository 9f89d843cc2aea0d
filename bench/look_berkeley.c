/* Berkeley DB finds a slide: the file is verified, by a handle that is used up by it, then opened and asked. */
#define _DEFAULT_SOURCE /* db.h: u_int */
#include "looker.h"
#include <db.h>
#include <stdio.h>
#include <stdlib.h>
#include <string.h>

enum { READABLE = 0644 };

static void need(int status)
{
    if (status != 0) {
        fprintf(stderr, "Berkeley DB: %s\n", db_strerror(status));
        exit(1);
    }
}

static DB *handle(void)
{
    DB *base;
    need(db_create(&base, NULL, 0));
    return base;
}

static DB *opened_at(const char *path, uint32_t flags)
{
    DB *base = handle();
    need(base->open(base, NULL, path, NULL, DB_BTREE, flags, READABLE));
    return base;
}

static DBT of(uint32_t *number)
{
    DBT made;
    memset(&made, 0, sizeof made);
    made.data = number;
    made.size = sizeof *number;
    return made;
}

/* Returns the path. */
static void *open_berkeley(const struct scene *scene, const char *folder)
{
    char *path = calloc(1, 512);
    if (path == NULL)
        exit(2);
    snprintf(path, 512, "%s/berkeley", folder);
    remove(path);
    DB *base = opened_at(path, DB_CREATE);
    for (uint32_t i = scene->oldest; i < scene->newest; i++) {
        uint32_t key = key_of(i), value = 7;
        DBT k = of(&key), v = of(&value);
        need(base->put(base, NULL, &k, &v, DB_NOOVERWRITE));
    }
    need(base->close(base, 0));
    return path;
}

static void look(void *path, uint32_t key)
{
    DB *base = handle();
    uint32_t value = 0;
    DBT k = of(&key), v = of(&value);
    need(base->verify(base, path, NULL, NULL, 0));
    base = opened_at(path, DB_RDONLY);
    need(base->get(base, NULL, &k, &v, 0));
    need(base->close(base, 0));
}

const struct looker berkeley_verified = { "Berkeley DB, verify, get", open_berkeley, look, free };
