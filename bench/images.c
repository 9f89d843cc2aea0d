/* Makes the registers that are measured: images PAGES SLOTS FOLDER. Each is the one before, filled further. */
#include "filling.h"
#include "staging.h"
#include <stdio.h>
#include <stdlib.h>

/* Slots that a batch of ten inserts must find free at its last one (01: 32 + 32 * 10 + 2), and some for its own records. */
enum { SPARE_FOR_CASE = 400 };

static void keep(const struct scene *scene, const char *folder, const char *name)
{
    char path[512];
    snprintf(path, sizeof path, "%s/%u-%s", folder, pages(scene), name);
    save_scene(scene, path);
}

int main(int count, char **words)
{
    static struct scene scene;
    if (count != 4) {
        fputs("images PAGES SLOTS FOLDER\n", stderr);
        return 2;
    }
    uint32_t slot_count = (uint32_t)atoi(words[2]);
    new_register(&scene, (uint32_t)atoi(words[1]), slot_count);
    keep(&scene, words[3], "empty");
    fill_to(&scene, slot_count / 2);
    keep(&scene, words[3], "half");
    if (slot_count / 2 + SPARE_FOR_CASE <= slot_count) {
        fill_to(&scene, slot_count - SPARE_FOR_CASE);
        keep(&scene, words[3], "case");
    }
    fill_to(&scene, slot_count - SPARE_FOR_UPDATE);
    keep(&scene, words[3], "full");
    give_back(&scene.in);
    return 0;
}
