/* The register files a case, and loads slides. */
#include "filer.h"
#include <stdlib.h>

struct opened {
    const struct scene *scene;
    struct scene work;
};

static void take_back(void *opened, const uint32_t keys[CASE_SLIDES])
{
    struct opened *to = opened;
    (void)keys;
    copy_scene(&to->work, to->scene);
}

static void *open_register(const struct scene *scene, const char *folder)
{
    struct opened *made = calloc(1, sizeof *made);
    (void)folder;
    if (made == NULL)
        exit(2);
    made->scene = scene;
    take_back(made, NULL);
    return made;
}

static void file(void *opened, const uint32_t keys[CASE_SLIDES])
{
    struct scene *work = &((struct opened *)opened)->work;
    uint32_t batch = must(work, 'B', 0, 0, 0);
    for (int i = 0; i < CASE_SLIDES; i++)
        must(work, 'I', batch, keys[i], 7);
    must(work, 'C', batch, 0, 0);
}

static void load(void *opened, const struct columns *of)
{
    struct scene *work = &((struct opened *)opened)->work;
    work->in.columns = *of;
    must(work, 'O', 0, 0, 0);
}

static void close_register(void *opened)
{
    give_back(&((struct opened *)opened)->work.in);
    free(opened);
}

const struct filer register_filer = { "register", open_register, file, take_back, close_register, load, NULL, NULL };
