/* A case of ten slides begun, filled and committed, for one size: cases FOLDER PAGES TABLE [quick], where TABLE is `memory`, by the
 * processor's time, or `flushed`, where the case must be on the drive and the time is what went by. What is compared takes turns. */
#include "clock.h"
#include "filer.h"
#include <stdio.h>
#include <string.h>

enum { MOST_FILERS = 4, IMAGES = 3, FLUSHED_IN_ROUND = 15 };

static const struct filer *const in_memory[] = {
    &register_filer,
#ifdef WITH_SQLITE
    &sqlite_in_memory,
    &sqlite_in_file,
#endif
#ifdef WITH_LMDB
    &lmdb_filer,
#endif
};
static const struct filer *const on_the_drive[] = {
    &host_filer,
#ifdef WITH_SQLITE
    &sqlite_rollback,
    &sqlite_ahead,
#endif
#ifdef WITH_LMDB
    &lmdb_flushed,
#endif
};

static const struct filer *const *filers = in_memory;
static int filer_count = sizeof in_memory / sizeof in_memory[0];
static int flushes;

struct column {
    struct times whole, part;
};

static struct scene scenes[IMAGES];
static struct column columns[IMAGES][MOST_FILERS];

static void one_turn(void *opened[], const uint32_t keys[CASE_SLIDES], struct column to[])
{
    for (int i = 0; i < filer_count; i++) {
        filers[i]->take_back(opened[i], keys);
        double start = flushes ? wall() : now();
        filers[i]->file(opened[i], keys);
        take(&to[i].whole, start, flushes ? wall() : now());
        if (filers[i]->part != NULL)
            take(&to[i].part, 0, filers[i]->part());
    }
}

/* A flush takes long and little of the processor's time. */
static int is_over(size_t repetitions, double began, int quick)
{
    return flushes ? quick || repetitions == FLUSHED_IN_ROUND : round_over(repetitions, began, quick);
}

/* One round on the slides of one scene. The first case of each is not timed: it finds nothing in the caches. */
static void one_round(const struct scene *scene, const char *folder, int quick, struct column to[])
{
    void *opened[MOST_FILERS];
    uint32_t keys[CASE_SLIDES];
    for (uint32_t i = 0; i < CASE_SLIDES; i++)
        keys[i] = key_of(scene->newest + i);
    for (int i = 0; i < filer_count; i++) {
        opened[i] = filers[i]->open(scene, folder);
        filers[i]->file(opened[i], keys);
    }
    double began = now();
    size_t repetitions = 0;
    do
        one_turn(opened, keys, to);
    while (!is_over(++repetitions, began, quick));
    for (int i = 0; i < filer_count; i++)
        filers[i]->close(opened[i]);
}

static void head(void)
{
    int count = 4;
    printf("| pages | slots | records | slides |");
    for (int i = 0; i < filer_count; i++) {
        printf(" %s, µs | median |", filers[i]->name);
        if (filers[i]->part != NULL)
            printf(" %s, µs | median |", filers[i]->part_name);
        count += filers[i]->part != NULL ? 4 : 2;
    }
    printf("\n|");
    for (int i = 0; i < count; i++)
        printf("--:|");
    putchar('\n');
}

static void print_row(const struct scene *scene, const struct column of[])
{
    printf("| %u | %u | %u | %u |", pages(scene), slots(scene), records(scene), scene->newest - scene->oldest);
    for (int i = 0; i < filer_count; i++) {
        printf(" %.1f | %.1f |", least(&of[i].whole), median(&of[i].whole));
        if (filers[i]->part != NULL)
            printf(" %.1f | %.1f |", least(&of[i].part), median(&of[i].part));
    }
    putchar('\n');
}

int main(int count, char **words)
{
    static const char *const images[IMAGES] = { "empty", "half", "case" };
    if (count < 4) {
        fputs("cases FOLDER PAGES memory|flushed [quick]\n", stderr);
        return 2;
    }
    if (strcmp(words[3], "flushed") == 0) {
        flushes = 1;
        filers = on_the_drive;
        filer_count = sizeof on_the_drive / sizeof on_the_drive[0];
    }
    for (int i = 0; i < IMAGES; i++)
        load_image(&scenes[i], words[1], words[2], images[i]);
    for (int round = 0; round < ROUNDS; round++)
        for (int i = 0; i < IMAGES; i++)
            one_round(&scenes[i], words[1], count > 4, columns[i]);
    head();
    for (int i = 0; i < IMAGES; i++)
        print_row(&scenes[i], columns[i]);
    return 0;
}
