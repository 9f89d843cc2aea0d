/* A slide found in a store that was judged whole first, for one size: lookups FOLDER PAGES [quick]. What is compared takes turns. */
#include "clock.h"
#include "looker.h"
#include "staging.h"
#include <stdio.h>

static const struct looker *const lookers[] = {
    &register_looker,
#ifdef WITH_SQLITE
    &sqlite_quick,
    &sqlite_integrity,
    &sqlite_unchecked,
#endif
#ifdef WITH_BERKELEY
    &berkeley_verified,
#endif
};
enum { LOOKERS = sizeof lookers / sizeof lookers[0] };

static struct scene scenes[FILLS];
static struct times times[FILLS][LOOKERS];

/* Each looks twice, and the second time counts: the first finds in the caches what the one before it left there. */
static void one_turn(void *opened[LOOKERS], uint32_t key, struct times to[LOOKERS])
{
    for (int i = 0; i < LOOKERS; i++) {
        lookers[i]->look(opened[i], key);
        double start = now();
        lookers[i]->look(opened[i], key);
        take(&to[i], start, now());
    }
}

/* One round on the slides of one scene. */
static void one_round(const struct scene *scene, const char *folder, int quick, struct times to[LOOKERS])
{
    const uint32_t key = scene->next.numbers[1];
    void *opened[LOOKERS];
    for (int i = 0; i < LOOKERS; i++)
        opened[i] = lookers[i]->open(scene, folder);
    double began = now();
    size_t repetitions = 0;
    do
        one_turn(opened, key, to);
    while (!round_over(++repetitions, began, quick));
    for (int i = 0; i < LOOKERS; i++)
        lookers[i]->close(opened[i]);
}

static void head(void)
{
    printf("| pages | slots | log | records | slides |");
    for (int i = 0; i < LOOKERS; i++)
        printf(" %s, µs | median |", lookers[i]->name);
    printf("\n|--:|--:|---|--:|--:|");
    for (int i = 0; i < LOOKERS; i++)
        printf("--:|--:|");
    putchar('\n');
}

static void print_row(int fill)
{
    const struct scene *scene = &scenes[fill];
    printf("| %u | %u | %s | %u | %u |", pages(scene), slots(scene), fill_names[fill], records(scene), scene->newest - scene->oldest);
    for (int i = 0; i < LOOKERS; i++)
        printf(" %.1f | %.1f |", least(&times[fill][i]), median(&times[fill][i]));
    putchar('\n');
}

int main(int count, char **words)
{
    if (count < 3) {
        fputs("lookups FOLDER PAGES [quick]\n", stderr);
        return 2;
    }
    for (int fill = 0; fill < FILLS; fill++) {
        load_image(&scenes[fill], words[1], words[2], fill_names[fill]);
        stage(&scenes[fill], 'F', (enum fill)fill);
    }
    for (int round = 0; round < ROUNDS; round++)
        for (int fill = 0; fill < FILLS; fill++)
            one_round(&scenes[fill], words[1], count > 3, times[fill]);
    head();
    for (int fill = 0; fill < FILLS; fill++)
        print_row(fill);
    return 0;
}
