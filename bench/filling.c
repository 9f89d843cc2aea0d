/* Filling: slides come in under new keys, and the oldest go once the register holds many. */
#include "filling.h"
#include <stdio.h>
#include <stdlib.h>
#include <string.h>

/* Five slides a page leave room for the pages that an open batch of ten must find free. */
enum { UPDATES = 10, SLIDES_A_PAGE = 5 };

/* Records that are left to top_up: an update seldom writes more than a few, and the batch's commit is one. */
enum { LEFT = 8 };

void new_register(struct scene *scene, uint32_t pages, uint32_t slots)
{
    memset(scene, 0, sizeof *scene);
    lend_parts(&scene->in, pages, slots);
    must(scene, 'Z', 0, 0, 0);
    uint32_t batch = must(scene, 'B', 0, 0, 0);
    must(scene, 'I', batch, key_of(scene->newest++), 0);
    must(scene, 'C', batch, 0, 0);
}

/* One slide in or out. Returns 0 where slots or pages are short for it. */
static int update(struct scene *scene, uint32_t batch)
{
    uint32_t held = scene->newest - scene->oldest;
    int out = held >= SLIDES_A_PAGE * pages(scene);
    struct call in_call = { 'I', { batch, key_of(scene->newest), scene->newest } };
    struct call out_call = { 'D', { batch, key_of(scene->oldest), 0 } };
    uint32_t reason = make(&scene->in, out ? out_call : in_call);
    if (reason == DONZHIKAR_ERROR_SLOTS_SHORT || reason == DONZHIKAR_ERROR_PAGES_SHORT)
        return 0;
    if (reason != 0) {
        fprintf(stderr, "filling is refused at %u records: %u\n", records(scene), reason);
        exit(1);
    }
    if (out)
        scene->oldest++;
    else
        scene->newest++;
    return 1;
}

/* A batch of up to ten updates. Returns how many. */
static int one_batch(struct scene *scene, uint32_t goal)
{
    int made = 0;
    uint32_t batch = must(scene, 'B', 0, 0, 0);
    while (made < UPDATES && records(scene) + LEFT <= goal && update(scene, batch))
        made++;
    must(scene, 'C', batch, 0, 0);
    return made;
}

void top_up(struct scene *scene, uint32_t goal)
{
    while (records(scene) + 2 <= goal) {
        uint32_t batch = must(scene, 'B', 0, 0, 0);
        /* An abort writes two records and a commit one, so three missing ones come out even. */
        must(scene, records(scene) + 2 == goal ? 'A' : 'C', batch, 0, 0);
    }
}

void fill_to(struct scene *scene, uint32_t goal)
{
    while (records(scene) + LEFT < goal && one_batch(scene, goal) > 0)
        continue;
    top_up(scene, goal);
    if (records(scene) > goal) {
        fprintf(stderr, "%u records, more than the %u wanted\n", records(scene), goal);
        exit(1);
    }
}
