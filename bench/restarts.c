/* Restart by how much it redoes, for one size, on the full log: restarts FOLDER PAGES [quick]. */
#include "measure.h"
#include "staging.h"
#include <stdio.h>
#include <string.h>

enum { WRITTEN = 3 };

/* The stable pages as they are where every page was last written out when the log was as in `then`. */
static void written_out_then(struct scene *scene, struct scene *then)
{
    write_out_all(then);
    struct area *to = &scene->in.areas[STABLE_PAGES];
    memcpy(to->bytes, then->in.areas[STABLE_PAGES].bytes, to->length);
}

/* The same log with the stable pages never written out, written out when it was half full, and just now. */
static void stage_all(struct scene scenes[WRITTEN], const char *folder, const char *page_count)
{
    static struct scene then;
    load_image(&scenes[0], folder, page_count, "full");
    stage_restart(&scenes[0]);
    load_image(&then, folder, page_count, "half");
    copy_scene(&scenes[1], &scenes[0]);
    written_out_then(&scenes[1], &then);
    copy_scene(&scenes[2], &scenes[0]);
    write_out_all(&scenes[2]);
}

static void print_row(const struct scene *scene, const char *written, const uint32_t values[2], const struct measured *measured)
{
    printf("| %s | %u | %u | %u |", written, records(scene), values[0], values[1]);
    print_measured(measured);
}

int main(int count, char **words)
{
    static const char *const written[WRITTEN] = { "never", "at half the log", "just before" };
    static struct scene scenes[WRITTEN];
    static struct measured measured[WRITTEN];
    uint32_t values[WRITTEN][2];
    if (count < 3) {
        fputs("restarts FOLDER PAGES [quick]\n", stderr);
        return 2;
    }
    stage_all(scenes, words[1], words[2]);
    for (int round = 0; round < ROUNDS; round++)
        for (int i = 0; i < WRITTEN; i++)
            measure(&scenes[i], count > 3, &measured[i], values[i]);
    printf("| pages written out | records | batches ended | page changes redone |");
    print_measured_head();
    puts("|---|--:|--:|--:|--:|--:|--:|--:|--:|--:|");
    for (int i = 0; i < WRITTEN; i++)
        print_row(&scenes[i], written[i], values[i], &measured[i]);
    return 0;
}
