/* The example host files a case: the twelve calls, and the stores of the commit on the drive. What it takes for those is timed by itself:
 * the linker leads its image_keep through here (--wrap). */
#include "clock.h"
#include "filer.h"
#include "host.h"
#include <stdio.h>
#include <stdlib.h>
#include <string.h>

struct opened {
    struct host host;
    const struct scene *scene;
    char path[512];
};

static double keeping;

void __real_image_keep(struct image *im);
void __wrap_image_keep(struct image *im);

void __wrap_image_keep(struct image *im)
{
    double start = wall();
    __real_image_keep(im);
    keeping += wall() - start;
}

static void need(uint32_t reason, const char *what)
{
    if (reason != 0) {
        fprintf(stderr, "the host's %s is refused: %u\n", what, reason);
        exit(1);
    }
}

/* The areas and the desk become the scene's. On the drive the case's slots stay full, and the next case's records are stored there. */
static void take_back(void *opened, const uint32_t keys[CASE_SLIDES])
{
    struct opened *in = opened;
    struct host *h = &in->host;
    uint8_t *const areas[AREAS] = { h->work_pages, h->image.stable_pages, h->work_log, h->image.stable_log };
    (void)keys;
    for (int i = 0; i < AREAS; i++)
        memcpy(areas[i], in->scene->in.areas[i].bytes, in->scene->in.areas[i].length);
    memcpy(h->desk, in->scene->in.desk, sizeof h->desk);
    h->image.kept_slots = stored(in->scene);
}

static void *open_host(const struct scene *scene, const char *folder)
{
    struct opened *in = calloc(1, sizeof *in);
    if (in == NULL)
        exit(2);
    in->scene = scene;
    snprintf(in->path, sizeof in->path, "%s/host", folder);
    remove(in->path);
    need(host_start(&in->host, in->path, pages(scene), slots(scene)), "start");
    take_back(in, NULL);
    in->host.image.kept_slots = 0;
    image_keep(&in->host.image);
    return in;
}

static void file(void *opened, const uint32_t keys[CASE_SLIDES])
{
    struct host *h = &((struct opened *)opened)->host;
    keeping = 0;
    need(host_begin(h), "begin");
    uint32_t batch = donzhikar_value(h->values, 0);
    for (int i = 0; i < CASE_SLIDES; i++)
        need(host_insert(h, batch, keys[i], 7), "insert");
    need(host_commit(h, batch), "commit");
}

static double kept(void)
{
    return keeping;
}

static void close_host(void *opened)
{
    host_stop(&((struct opened *)opened)->host);
    free(opened);
}

const struct filer host_filer = { "example host", open_host, file, take_back, close_host, NULL, kept, "of that its stores" };
