/* The register finds a slide: one fetch, which judges all that is lent. */
#include "looker.h"
#include <stdlib.h>

static void *open_register(const struct scene *scene, const char *folder)
{
    struct scene *work = calloc(1, sizeof *work);
    (void)folder;
    if (work == NULL)
        exit(2);
    copy_scene(work, scene);
    return work;
}

static void look(void *opened, uint32_t key)
{
    struct scene *work = opened;
    must(work, 'F', work->next.numbers[0], key, 0);
}

static void close_register(void *opened)
{
    give_back(&((struct scene *)opened)->in);
    free(opened);
}

const struct looker register_looker = { "register, fetch", open_register, look, close_register };
