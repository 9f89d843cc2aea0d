/* As many slides as fit loaded into a register, and into databases that hold none: loads FOLDER quick|whole PAGES.. By the processor's time;
 * what is compared takes turns. */
#include "clock.h"
#include "filer.h"
#include "staging.h"
#include <stdio.h>
#include <string.h>

enum { MOST_SIZES = 3 };

static const struct filer *const loaders[] = {
    &register_filer,
#ifdef WITH_SQLITE
    &sqlite_in_memory,
    &sqlite_in_file,
#endif
#ifdef WITH_LMDB
    &lmdb_filer,
#endif
};
enum { LOADERS = sizeof loaders / sizeof loaders[0] };

static struct scene scenes[MOST_SIZES];
static struct times times[MOST_SIZES][LOADERS];

/* Each is opened anew: only the loading is timed. */
static void one_turn(const struct scene *scene, const char *folder, struct times to[])
{
    for (int i = 0; i < LOADERS; i++) {
        void *opened = loaders[i]->open(scene, folder);
        double start = now();
        loaders[i]->load(opened, &scene->in.columns);
        take(&to[i], start, now());
        loaders[i]->close(opened);
    }
}

static void one_round(const struct scene *scene, const char *folder, int quick, struct times to[])
{
    double began = now();
    size_t repetitions = 0;
    do
        one_turn(scene, folder, to);
    while (!round_over(++repetitions, began, quick));
}

static void head(void)
{
    printf("| slides | pages | slots |");
    for (int i = 0; i < LOADERS; i++)
        printf(" %s, µs | median |", loaders[i]->name);
    printf("\n|--:|--:|--:|");
    for (int i = 0; i < LOADERS; i++)
        printf("--:|--:|");
    putchar('\n');
}

static void print_row(const struct scene *scene, const struct times of[])
{
    printf("| %zu | %u | %u |", scene->in.columns.keys_length, pages(scene), slots(scene));
    for (int i = 0; i < LOADERS; i++)
        printf(" %.1f | %.1f |", least(&of[i]), median(&of[i]));
    putchar('\n');
}

/* A register with a full log. The databases find no slides to open with. */
static void stage_size(struct scene *scene, const char *folder, const char *page_count)
{
    load_image(scene, folder, page_count, "full");
    stage_load(scene);
    scene->oldest = scene->newest;
}

int main(int count, char **words)
{
    int sizes = count - 3;
    if (sizes < 1 || sizes > MOST_SIZES) {
        fputs("loads FOLDER quick|whole PAGES..\n", stderr);
        return 2;
    }
    for (int i = 0; i < sizes; i++)
        stage_size(&scenes[i], words[1], words[3 + i]);
    for (int round = 0; round < ROUNDS; round++)
        for (int i = 0; i < sizes; i++)
            one_round(&scenes[i], words[1], strcmp(words[2], "quick") == 0, times[i]);
    head();
    for (int i = 0; i < sizes; i++)
        print_row(&scenes[i], times[i]);
    return 0;
}
